//! Movies and the questions about them.
use crate::answers::{
    Edit, Fragments, Header, Peak, ProfileRecord, Sample, SampleAt, Shown, Stretch, StretchSize, Track,
};
use crate::ffi::{self, broken, promised, Handle};
use crate::film::Film;
use crate::moov::moov_in;
use crate::opened::Opened;
use crate::quay::{QuayFault, QuayRule};
use crate::refusal::Refusal;
use crate::room::room;
use crate::samples::Samples;
use crate::units::{ByteRange, FourCC, MediaTime, MovieTime, TrackId};
use std::fmt;
use std::ops::{Range, RangeInclusive};
use std::sync::OnceLock;

/// The most bytes that are lent of an accepted film: its whole file, or its moov. More are [`Refusal::FileTooLong`].
pub const MAX_FILE_BYTES: u64 = 2_147_483_647;

/// The greatest length that the file of an accepted film has, where its moov is lent alone.
pub const MAX_LENGTH: u64 = (1 << 63) - 1;

/// The most tracks that a movie has, and the most records that a profile has.
const MAX_TRACKS: usize = 16;
const MAX_RECORDS: usize = 64;

/// The most edits that a track has.
const MAX_EDITS: usize = 256;

/// The refusal of a film where strict reading is asked for, as the slip writer asks: the lowest of refusals
/// 1 to 13 that applies, if one does.
///
/// ```
/// # std::env::set_current_dir("../..")?;
/// let file = std::fs::read("films/w.mov")?;
/// assert_eq!(chaldoref::strict_refusal(&file), None);
/// # Ok::<(), Box<dyn std::error::Error>>(())
/// ```
#[must_use]
pub fn strict_refusal<'a>(film: impl Into<Film<'a>>) -> Option<Refusal> {
    // No track has ID 0, so that a slip of it is refused 14 where the film is not.
    match ffi::write_slip(film.into(), 0, 0, 0, &mut []) {
        Err(Refusal::NoTrack) => None,
        Err(refusal) => Some(refusal),
        Ok(_) => broken(),
    }
}

/// A movie that the reader has accepted.
///
/// It borrows what is lent of its film and keeps the track list beside it, and of each track that was asked about where
/// its tables are. See the [crate](crate) for what a question costs. Each question gets the library's own answer, also
/// for an ID that no track has ([`Refusal::NoTrack`]). Of the film's refusals, 1 to 13 and 19, only
/// [`Refusal::StoredDuration`] comes after [`Movie::open`], and only of a slip that is written.
#[derive(Clone)]
pub struct Movie<'a> {
    film: Film<'a>,
    tracks: [Track; MAX_TRACKS],
    count: usize,
    /// The handle of each track, from the first question on that needs it.
    handles: [OnceLock<Handle>; MAX_TRACKS],
}

impl<'a> Movie<'a> {
    /// Judges a film and reads its track list: a whole movie file, or a [`Film::Moov`].
    ///
    /// # Errors
    ///
    /// The first of refusals 1 to 13 and 19, in the order in which they are judged, that applies, if one does; 11,
    /// [`Refusal::StoredDuration`], is not among them.
    pub fn open(film: impl Into<Film<'a>>) -> Result<Movie<'a>, Refusal> {
        let film = film.into();
        let mut tracks = [Track::default(); MAX_TRACKS];
        let [count] = ffi::track_list(film, &mut tracks)?;
        Ok(Movie { film, tracks, count: promised(count), handles: Default::default() })
    }

    /// The film, as it was lent.
    #[must_use]
    pub fn film(&self) -> Film<'a> {
        self.film
    }

    /// The tracks, in file order. There may be none, and there are 16 at most.
    #[must_use]
    pub fn tracks(&self) -> &[Track] {
        &self.tracks[..self.count]
    }

    /// The track with that ID, if there is one.
    #[must_use]
    pub fn track(&self, id: TrackId) -> Option<&Track> {
        self.tracks().iter().find(|track| track.id == id)
    }

    /// A track, opened once for many questions about its samples, times and stretches: the film is judged here, the first
    /// time that the track is opened or asked such a question, and not again by them.
    ///
    /// # Errors
    ///
    /// [`Refusal::NoTrack`].
    pub fn opened(&self, id: TrackId) -> Result<Opened<'a>, Refusal> {
        let Some(place) = self.tracks().iter().position(|track| track.id == id) else {
            return Err(ffi::open(self.film, id.0).err().unwrap_or_else(|| broken()));
        };
        // The film is accepted and has the track, so that no refusal is left.
        let handle = self.handles[place].get_or_init(|| ffi::open(self.film, id.0).unwrap_or_else(|_| broken()));
        Ok(Opened::new(self.film.lent(), self.tracks[place], *handle))
    }

    /// The movie's time scale and the duration that it stores.
    ///
    /// ```
    /// use chaldoref::{Movie, MovieTime};
    ///
    /// # std::env::set_current_dir("../..")?;
    /// let file = std::fs::read("films/w.mov")?;
    /// let header = Movie::open(&file)?.header();
    /// assert_eq!((header.scale, header.stored), (600, MovieTime(120)));
    /// # Ok::<(), Box<dyn std::error::Error>>(())
    /// ```
    #[must_use]
    pub fn header(&self) -> Header {
        // The film is accepted, so that no refusal is left.
        let [scale, stored] = ffi::movie(self.film).unwrap_or_else(|_| broken());
        Header { scale: promised(scale), stored: MovieTime(promised(stored)) }
    }

    /// The edit list of a track, in order; empty where it has none.
    ///
    /// # Errors
    ///
    /// [`Refusal::NoTrack`].
    pub fn edits(&self, id: TrackId) -> Result<Vec<Edit>, Refusal> {
        let mut edits = [Edit::default(); MAX_EDITS];
        let [count] = ffi::edits(self.film, id.0, &mut edits)?;
        Ok(edits[..promised(count)].to_vec())
    }

    /// Sample `n` of a track, numbered from 1.
    ///
    /// ```
    /// use chaldoref::{MediaTime, Movie, TrackId};
    ///
    /// # std::env::set_current_dir("../..")?;
    /// let file = std::fs::read("films/w.mov")?;
    /// let sample = Movie::open(&file)?.sample(TrackId(1), 4)?;
    /// assert_eq!((sample.decode, sample.duration), (MediaTime(72), 48));
    /// assert_eq!((sample.chunk, sample.offset, sample.size), (2, 900, 70));
    /// # Ok::<(), Box<dyn std::error::Error>>(())
    /// ```
    ///
    /// # Errors
    ///
    /// [`Refusal::NoTrack`]; [`Refusal::Outside`] where the track has no sample `n`.
    pub fn sample(&self, id: TrackId, n: u32) -> Result<Sample, Refusal> {
        self.opened(id)?.sample(n)
    }

    /// The samples of a track, in order: what [`Movie::sample`] answers of each. The film is judged as [`Movie::opened`] says, and
    /// no table is begun again. There are none where the track has none.
    ///
    /// ```
    /// use chaldoref::{Movie, TrackId};
    ///
    /// # std::env::set_current_dir("../..")?;
    /// let file = std::fs::read("films/w.mov")?;
    /// let movie = Movie::open(&file)?;
    /// let sizes: Vec<u32> = movie.samples(TrackId(1))?.map(|sample| sample.size).collect();
    /// assert_eq!(sizes, [100, 50, 0, 70]);
    /// # Ok::<(), Box<dyn std::error::Error>>(())
    /// ```
    ///
    /// # Errors
    ///
    /// [`Refusal::NoTrack`].
    pub fn samples(&self, id: TrackId) -> Result<Samples<'a>, Refusal> {
        Ok(self.opened(id)?.samples())
    }

    /// The samples of a track from sample `n` on, numbered from 1.
    ///
    /// ```
    /// use chaldoref::{Movie, Refusal, TrackId};
    ///
    /// # std::env::set_current_dir("../..")?;
    /// let file = std::fs::read("films/w.mov")?;
    /// let movie = Movie::open(&file)?;
    /// let mut samples = movie.samples_from(TrackId(1), 4)?;
    /// assert_eq!((samples.len(), samples.next()), (1, Some(movie.sample(TrackId(1), 4)?)));
    /// assert_eq!(samples.next(), None);
    /// assert_eq!(movie.samples_from(TrackId(1), 5).err(), Some(Refusal::Outside));
    /// # Ok::<(), Box<dyn std::error::Error>>(())
    /// ```
    ///
    /// # Errors
    ///
    /// [`Refusal::NoTrack`]; [`Refusal::Outside`] where the track has no sample `n`.
    pub fn samples_from(&self, id: TrackId, n: u32) -> Result<Samples<'a>, Refusal> {
        self.opened(id)?.samples_from(n)
    }

    /// The bytes of sample `n` of a track, numbered from 1, as they stand in the file; `None` where the moov was lent
    /// alone.
    ///
    /// # Errors
    ///
    /// [`Refusal::NoTrack`]; [`Refusal::Outside`] where the track has no sample `n`.
    pub fn sample_bytes(&self, id: TrackId, n: u32) -> Result<Option<&'a [u8]>, Refusal> {
        let range = self.sample_range(id, n)?;
        Ok(match self.film {
            Film::Whole(file) => Some(range.of(file).unwrap_or_else(|| broken())),
            Film::Moov { .. } => None,
        })
    }

    /// Where in the file those bytes are.
    ///
    /// # Errors
    ///
    /// Those of [`Movie::sample_bytes`].
    pub fn sample_range(&self, id: TrackId, n: u32) -> Result<ByteRange, Refusal> {
        Ok(self.sample(id, n)?.range())
    }

    /// The sample at a media time: the one with decode time ≤ `t` < decode time plus duration.
    ///
    /// # Errors
    ///
    /// [`Refusal::NoTrack`]; [`Refusal::Outside`] where `t` is not below the track's total.
    pub fn sample_at(&self, id: TrackId, t: MediaTime) -> Result<SampleAt, Refusal> {
        self.opened(id)?.sample_at(t)
    }

    /// What a track shows at a movie time, which goes through the track's edit list if it has one.
    ///
    /// ```
    /// use chaldoref::{MediaTime, Movie, MovieTime, Shown, TrackId};
    ///
    /// # std::env::set_current_dir("../..")?;
    /// let file = std::fs::read("films/w.mov")?;
    /// let movie = Movie::open(&file)?;
    /// assert_eq!(movie.media_time(TrackId(1), MovieTime(60))?, Shown::At(MediaTime(60)));
    /// # Ok::<(), Box<dyn std::error::Error>>(())
    /// ```
    ///
    /// # Errors
    ///
    /// [`Refusal::NoTrack`]; [`Refusal::Outside`] at or past the end: that of the last edit, or without an edit list
    /// that of the media.
    pub fn media_time(&self, id: TrackId, t: MovieTime) -> Result<Shown, Refusal> {
        self.opened(id)?.media_time(t)
    }

    /// The bytes of a track from one media time up to another: all samples from the one at the start to the one just
    /// before the end.
    ///
    /// # Errors
    ///
    /// [`Refusal::NoTrack`]; [`Refusal::Outside`] unless start < end ≤ the track's total; [`Refusal::NoRoom`] where
    /// there is no memory for a range for each of the track's chunks.
    pub fn stretch(&self, id: TrackId, time: Range<MediaTime>) -> Result<Stretch, Refusal> {
        self.opened(id)?.stretch(time)
    }

    /// The same into lent room, of which the first ranges are filled. As many as the track has chunks are always
    /// enough.
    ///
    /// ```
    /// use chaldoref::{ByteRange, MediaTime, Movie, Refusal, TrackId};
    ///
    /// # std::env::set_current_dir("../..")?;
    /// let file = std::fs::read("films/w.mov")?;
    /// let movie = Movie::open(&file)?;
    /// let mut room = [ByteRange::default(); 2];
    /// let size = movie.stretch_into(TrackId(1), MediaTime(24)..MediaTime(25), &mut room)?;
    /// assert_eq!((&room[..size.pairs], size.bytes), (&[ByteRange { offset: 1100, length: 50 }][..], 50));
    /// let short = movie.stretch_into(TrackId(1), MediaTime(0)..MediaTime(120), &mut room[..1]);
    /// assert_eq!(short, Err(Refusal::NoRoom));
    /// # Ok::<(), Box<dyn std::error::Error>>(())
    /// ```
    ///
    /// # Errors
    ///
    /// Those of [`Movie::stretch`]; [`Refusal::NoRoom`] where the room is too short. The room then keeps its contents.
    pub fn stretch_into(
        &self,
        id: TrackId,
        time: Range<MediaTime>,
        room: &mut [ByteRange],
    ) -> Result<StretchSize, Refusal> {
        self.opened(id)?.stretch_into(time, room)
    }

    /// The slip of a stretch.
    ///
    /// # Errors
    ///
    /// [`Refusal::StoredDuration`] where a track of the movie, this or another, stores another duration than the total
    /// of its samples' ([`Track::has_other_duration`]); [`Refusal::NoTrack`]; [`Refusal::Outside`] unless start < end ≤ the track's total; [`Refusal::NoRoom`] where
    /// there is no memory for [`Track::slip_room`] bytes.
    pub fn write_slip(&self, id: TrackId, time: Range<MediaTime>) -> Result<Vec<u8>, Refusal> {
        // Without memory no bytes are lent, and the library says so.
        let mut out = room::<u8>(self.track(id).map_or(0, Track::slip_room)).unwrap_or_default();
        let length = self.write_slip_into(id, time, &mut out)?;
        out.truncate(length);
        out.shrink_to_fit();
        Ok(out)
    }

    /// The same into lent bytes; the slip's length is returned. [`Track::slip_room`] bytes are always enough.
    ///
    /// # Errors
    ///
    /// Those of [`Movie::write_slip`]; [`Refusal::NoRoom`] where the bytes are too few. They then keep their contents.
    pub fn write_slip_into(&self, id: TrackId, time: Range<MediaTime>, out: &mut [u8]) -> Result<usize, Refusal> {
        let [length] = ffi::write_slip(self.film, id.0, time.start.0, time.end.0, out)?;
        Ok(promised(length))
    }

    /// Whether the film has fragments, whose samples are not read. Of a film that is lent by its moov the top level is not known here:
    /// [`Moov::fragments`](crate::Moov::fragments) tells how many fragments stand there.
    #[must_use]
    pub fn fragments(&self) -> Fragments {
        // The film is accepted, so that no refusal is left.
        let [announced, present] = ffi::fragments(self.film).unwrap_or_else(|_| broken());
        Fragments { announced: announced == 1, present: present == 1 }
    }

    /// Where the moov atom stands in what was lent; a moov that is lent alone is all of it.
    #[must_use]
    pub fn moov_bytes(&self) -> Range<usize> {
        match self.film {
            Film::Moov { moov, .. } => 0..moov.len(),
            // The film is accepted, so that it has one moov.
            Film::Whole(file) => moov_in(file).unwrap_or_else(|_| broken()),
        }
    }

    /// The moov atom written anew with compact tables: its stts and stsc have the fewest entries that say the same, and the bytes freed in a track
    /// are one `free` atom. It is as long as the moov was. With it in the moov's place, no offset moves and every question gets
    /// the same answer, so slips of the film stay good.
    ///
    /// ```
    /// use chaldoref::Movie;
    ///
    /// # std::env::set_current_dir("../..")?;
    /// let mut file = std::fs::read("films/two-hoses.mov")?;
    /// let movie = Movie::open(&file)?;
    /// let (place, moov) = (movie.moov_bytes(), movie.compact()?);
    /// file[place].copy_from_slice(&moov);
    /// # Ok::<(), Box<dyn std::error::Error>>(())
    /// ```
    ///
    /// # Errors
    ///
    /// [`Refusal::NoRoom`] where there is no memory for it.
    pub fn compact(&self) -> Result<Vec<u8>, Refusal> {
        // Without memory no bytes are lent, and the library says so.
        let mut out = room::<u8>(self.moov_bytes().len()).unwrap_or_default();
        self.compact_into(&mut out)?;
        Ok(out)
    }

    /// The same into lent bytes; the moov's length is returned.
    ///
    /// # Errors
    ///
    /// [`Refusal::NoRoom`] where the bytes are fewer than the moov has. They then keep their contents.
    pub fn compact_into(&self, out: &mut [u8]) -> Result<usize, Refusal> {
        let [length] = ffi::compact(self.film, out)?;
        Ok(promised(length))
    }

    /// The stored profile of a track: its records with a code other than 0, in order; none where there is no profile.
    /// `TrackId(0)`, which no track has, asks for the movie's own.
    ///
    /// # Errors
    ///
    /// [`Refusal::NoTrack`], but not for `TrackId(0)`.
    pub fn profile(&self, id: TrackId) -> Result<Vec<ProfileRecord>, Refusal> {
        let mut records = [ProfileRecord::default(); MAX_RECORDS];
        let [count] = ffi::profile(self.film, id.0, &mut records)?;
        Ok(records[..promised(count)].to_vec())
    }

    /// The movie's own stored profile.
    #[must_use]
    pub fn movie_profile(&self) -> Vec<ProfileRecord> {
        // No refusal is left for ID 0: the file is accepted and the room enough.
        self.profile(TrackId(0)).unwrap_or_else(|_| broken())
    }

    /// Whether the stored profile of a track is true: `None` if it is, also without one; or the place of the first record
    /// at fault, from 1, in [`Movie::profile`].
    ///
    /// Of the records with the part-ID [`UNIVERSAL_PART`](crate::UNIVERSAL_PART) each with the code of a
    /// [`Feature`](crate::Feature) is at least that feature, `tvsz` in each half; one whose feature cannot be computed is at
    /// fault. If there is one with the code `vfmt` in a `vide` track, or `afmt` in a `soun` track, their values are exactly the
    /// formats of the track's descriptions; a format that none has is charged to the first of them. All others are passed
    /// over.
    ///
    /// ```
    /// use chaldoref::{Movie, Refusal, TrackId};
    ///
    /// # std::env::set_current_dir("../..")?;
    /// let file = std::fs::read("films/w.mov")?;
    /// let movie = Movie::open(&file)?;
    /// assert_eq!(movie.check_profile(TrackId(1))?, None);
    /// assert_eq!(movie.check_profile(TrackId(2)), Err(Refusal::NoTrack));
    /// # Ok::<(), Box<dyn std::error::Error>>(())
    /// ```
    ///
    /// # Errors
    ///
    /// [`Refusal::NoTrack`], also for `TrackId(0)`.
    pub fn check_profile(&self, id: TrackId) -> Result<Option<u32>, Refusal> {
        let [place] = ffi::check_profile(self.film, id.0)?;
        Ok((place != 0).then(|| promised(place)))
    }

    /// Whether the movie keeps the quay film profile, the subset of films that camera contracts name: `None` if it does; or the
    /// lowest of its rules that any track breaks, with the first track that breaks it.
    ///
    /// ```
    /// use chaldoref::{Movie, QuayRule, TrackId};
    ///
    /// # std::env::set_current_dir("../..")?;
    /// assert_eq!(Movie::open(&std::fs::read("films/two-hoses.mov")?)?.check_quay(), None);
    /// let fault = Movie::open(&std::fs::read("films/w.mov")?)?.check_quay().unwrap();
    /// assert_eq!((fault.rule, fault.track), (QuayRule::Sizes, Some(TrackId(1))));
    /// # Ok::<(), Box<dyn std::error::Error>>(())
    /// ```
    #[must_use]
    pub fn check_quay(&self) -> Option<QuayFault> {
        // The film is accepted, so that no refusal is left.
        let [rule, id] = ffi::check_quay(self.film).unwrap_or_else(|_| broken());
        let rule =
            if rule == 0 { None } else { Some(QuayRule::from_number(promised(rule)).unwrap_or_else(|| broken())) };
        rule.map(|rule| QuayFault { rule, track: (id != 0).then(|| TrackId(promised(id))) })
    }

    /// A feature computed from a track's tables, by its [`Feature`](crate::Feature) or any four-character code.
    ///
    /// ```
    /// use chaldoref::{Feature, FourCC, Movie, Refusal, TrackId};
    ///
    /// # std::env::set_current_dir("../..")?;
    /// let file = std::fs::read("films/w.mov")?;
    /// let movie = Movie::open(&file)?;
    /// assert_eq!(movie.feature(TrackId(1), Feature::AverageVideoBitRate)?, 8800);
    /// assert_eq!(movie.feature(TrackId(1), FourCC::from_bytes(*b"vfmt")), Err(Refusal::NotComputed));
    /// # Ok::<(), Box<dyn std::error::Error>>(())
    /// ```
    ///
    /// # Errors
    ///
    /// [`Refusal::NoTrack`]; [`Refusal::NotComputed`] for a track that has not what the feature needs, and for every
    /// code but those of [`Feature::ALL`](crate::Feature::ALL).
    pub fn feature(&self, id: TrackId, code: impl Into<FourCC>) -> Result<u32, Refusal> {
        let [value] = ffi::feature(self.film, id.0, code.into().0)?;
        Ok(promised(value))
    }

    /// Where a track has its highest bit rate over one second, by
    /// [`Feature::HighestVideoBitRate`](crate::Feature::HighestVideoBitRate) or
    /// [`Feature::HighestAudioBitRate`](crate::Feature::HighestAudioBitRate): the first second that has the greatest.
    /// It costs a judging beside that of [`Movie::opened`].
    ///
    /// ```
    /// use chaldoref::{Feature, MediaTime, Movie, TrackId};
    ///
    /// # std::env::set_current_dir("../..")?;
    /// let file = std::fs::read("films/w.mov")?;
    /// let movie = Movie::open(&file)?;
    /// assert_eq!(movie.feature(TrackId(1), Feature::HighestVideoBitRate)?, 8800);
    /// let peak = movie.peak(TrackId(1), Feature::HighestVideoBitRate)?;
    /// assert_eq!((peak.samples, peak.time), (1..=4, MediaTime(0)..MediaTime(120)));
    /// # Ok::<(), Box<dyn std::error::Error>>(())
    /// ```
    ///
    /// # Errors
    ///
    /// Those of [`Movie::feature`]; [`Refusal::NotComputed`] for every other code.
    pub fn peak(&self, id: TrackId, code: impl Into<FourCC>) -> Result<Peak, Refusal> {
        let [first, count] = ffi::peak(self.film, id.0, code.into().0)?;
        let samples: RangeInclusive<u32> = promised(first)..=promised(first + count - 1);
        let track = self.opened(id)?;
        let start = track.sample(*samples.start())?.decode;
        let last = track.sample(*samples.end())?;
        let end = MediaTime(promised(u64::from(last.decode.0) + u64::from(last.duration)));
        Ok(Peak { samples, time: start..end })
    }
}

impl fmt::Debug for Movie<'_> {
    /// The tracks and the film's lengths.
    fn fmt(&self, f: &mut fmt::Formatter<'_>) -> fmt::Result {
        f.debug_struct("Movie").field("film", &self.film).field("tracks", &self.tracks()).finish()
    }
}
