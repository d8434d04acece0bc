//! Tracks that are opened once, and their indices.
use crate::answers::{Sample, SampleAt, Shown, Stretch, StretchSize, Track};
use crate::ffi::{self, broken, promised, Handle, CHECKPOINT_NUMBERS, CHECKPOINT_SAMPLES};
use crate::refusal::Refusal;
use crate::room::room;
use crate::samples::Samples;
use crate::units::{ByteRange, MediaTime, MovieTime, TrackId};
use std::fmt;
use std::ops::Range;

/// How many entries two tables of a track have.
#[non_exhaustive]
#[derive(Clone, Copy, Debug, PartialEq, Eq, Hash)]
pub struct TableEntries {
    /// Runs of samples with one duration.
    pub stts: u32,
    /// Runs of chunks with as many samples of one description.
    pub stsc: u32,
}

/// A track that was opened by [`Movie::opened`](crate::Movie::opened): the film is judged there and not again by these questions, whose answers are
/// those of the [`Movie`](crate::Movie)'s own.
///
/// ```
/// use chaldoref::{MediaTime, Movie, TrackId};
///
/// # std::env::set_current_dir("../..")?;
/// let file = std::fs::read("films/w.mov")?;
/// let track = Movie::open(&file)?.opened(TrackId(1))?;
/// let shown: Vec<u32> = [0, 24, 72].map(|t| track.sample_at(MediaTime(t)).unwrap().sample).to_vec();
/// assert_eq!((shown, track.sample(4)?.offset), (vec![1, 2, 4], 900));
/// assert_eq!(track.samples_from(3)?.map(|sample| sample.offset).collect::<Vec<_>>(), [1150, 900]);
/// # Ok::<(), Box<dyn std::error::Error>>(())
/// ```
#[derive(Clone, Copy)]
pub struct Opened<'a> {
    lent: &'a [u8],
    track: Track,
    /// Where the library has found its tables, and its numbers.
    handle: Handle,
}

impl<'a> Opened<'a> {
    pub(crate) fn new(lent: &'a [u8], track: Track, handle: Handle) -> Opened<'a> {
        Opened { lent, track, handle }
    }

    /// The track's ID.
    #[must_use]
    pub fn id(&self) -> TrackId {
        self.track.id
    }

    /// Whether the track has a ctts, so that samples may be shown at other times than they are decoded at.
    #[must_use]
    pub fn has_ctts(&self) -> bool {
        // The fourth number of a handle is the length of ctts, 0 where there is none.
        self.handle[3] > 0
    }

    /// How many entries the track's stts and stsc have, by the lengths that the library has found them with.
    #[must_use]
    pub fn table_entries(&self) -> TableEntries {
        // A handle begins with the place and the length of stts, ctts and stsc; an accepted table is 16 bytes and its entries.
        let entries = |length: u64, width: u64| promised(length.saturating_sub(16) / width);
        TableEntries { stts: entries(self.handle[1], 8), stsc: entries(self.handle[5], 12) }
    }

    /// Sample `n`, numbered from 1, in time that grows with the entries of the tables before it; [`Opened::indexed`] is for many.
    ///
    /// # Errors
    ///
    /// [`Refusal::Outside`] where the track has no sample `n`.
    pub fn sample(&self, n: u32) -> Result<Sample, Refusal> {
        ffi::opened_sample(self.lent, &self.handle, n).map(Sample::of)
    }

    /// The sample at a media time.
    ///
    /// # Errors
    ///
    /// [`Refusal::Outside`] where `t` is not below the track's total.
    pub fn sample_at(&self, t: MediaTime) -> Result<SampleAt, Refusal> {
        ffi::opened_sample_at(self.lent, &self.handle, t.0).map(SampleAt::of)
    }

    /// What the track shows at a movie time.
    ///
    /// # Errors
    ///
    /// [`Refusal::Outside`] at or past the end.
    pub fn media_time(&self, t: MovieTime) -> Result<Shown, Refusal> {
        ffi::opened_media_time(self.lent, &self.handle, t.0).map(Shown::of)
    }

    /// The samples of the track, in order. There may be none.
    #[must_use]
    pub fn samples(&self) -> Samples<'a> {
        match self.track.samples {
            0 => Samples::none(),
            // It has a first sample, so that no refusal is left.
            _ => self.samples_from(1).unwrap_or_else(|_| broken()),
        }
    }

    /// The samples of the track from sample `n` on, numbered from 1.
    ///
    /// # Errors
    ///
    /// [`Refusal::Outside`] where the track has no sample `n`.
    pub fn samples_from(&self, n: u32) -> Result<Samples<'a>, Refusal> {
        let stepper = ffi::opened_step_start(self.lent, &self.handle, n)?;
        // The library has accepted `n`: it is from 1 to their number.
        Ok(Samples::new(self.lent, stepper, self.track.samples - (n - 1)))
    }

    /// The bytes of the track from one media time up to another.
    ///
    /// # Errors
    ///
    /// [`Refusal::Outside`] unless start < end ≤ the track's total; [`Refusal::NoRoom`] where there is no memory for a range for each of
    /// the track's chunks.
    pub fn stretch(&self, time: Range<MediaTime>) -> Result<Stretch, Refusal> {
        // Without memory no room is lent, and the library says so.
        let mut pairs = room::<ByteRange>(self.track.chunks as usize).unwrap_or_default();
        let size = self.stretch_into(time, &mut pairs)?;
        pairs.truncate(size.pairs);
        pairs.shrink_to_fit();
        Ok(Stretch { pairs, bytes: size.bytes })
    }

    /// The same into lent room, of which the first ranges are filled. As many as the track has chunks are always enough.
    ///
    /// # Errors
    ///
    /// [`Refusal::Outside`]; [`Refusal::NoRoom`] where the room is too short. The room then keeps its contents.
    pub fn stretch_into(&self, time: Range<MediaTime>, room: &mut [ByteRange]) -> Result<StretchSize, Refusal> {
        let [pairs, bytes] = ffi::opened_stretch(self.lent, &self.handle, (time.start.0, time.end.0), room)?;
        Ok(StretchSize { pairs: promised(pairs), bytes })
    }

    /// The track with its index, in one pass over its tables.
    ///
    /// # Errors
    ///
    /// [`Refusal::NoRoom`] where there is no memory for it: three quarters of a byte a sample.
    pub fn indexed(&self) -> Result<Indexed<'a>, Refusal> {
        let checkpoints = (self.track.samples as usize).div_ceil(CHECKPOINT_SAMPLES);
        let mut index = room::<u64>(CHECKPOINT_NUMBERS * checkpoints).unwrap_or_default();
        ffi::index(self.lent, &self.handle, &mut index)?;
        Ok(Indexed { opened: *self, index })
    }
}

impl fmt::Debug for Opened<'_> {
    /// The track's ID; the numbers of a handle would be no help.
    fn fmt(&self, f: &mut fmt::Formatter<'_>) -> fmt::Result {
        f.debug_struct("Opened").field("id", &self.id()).finish_non_exhaustive()
    }
}

/// An opened track with its index, made by [`Opened::indexed`]. Its answers are those of the [`Opened`] track, in time that does not grow with
/// the entries of the tables before a sample.
///
/// ```
/// use chaldoref::{MediaTime, Movie, TrackId};
///
/// # std::env::set_current_dir("../..")?;
/// let file = std::fs::read("films/two-hoses.mov")?;
/// let hose = Movie::open(&file)?.opened(TrackId(2))?.indexed()?;
/// let offsets: Vec<u64> = (1..=6).rev().map(|n| hose.sample(n).unwrap().offset).collect();
/// assert_eq!(offsets, [1236, 1220, 1172, 1156, 1108, 1092]);
/// assert_eq!(hose.sample_at(MediaTime(143))?.sample, 6);
/// # Ok::<(), Box<dyn std::error::Error>>(())
/// ```
#[derive(Clone)]
pub struct Indexed<'a> {
    opened: Opened<'a>,
    index: Vec<u64>,
}

impl<'a> Indexed<'a> {
    /// The track without its index.
    #[must_use]
    pub fn opened(&self) -> Opened<'a> {
        self.opened
    }

    /// Sample `n`, numbered from 1.
    ///
    /// # Errors
    ///
    /// [`Refusal::Outside`] where the track has no sample `n`.
    pub fn sample(&self, n: u32) -> Result<Sample, Refusal> {
        ffi::indexed_sample(self.opened.lent, &self.opened.handle, &self.index, n).map(Sample::of)
    }

    /// The sample at a media time.
    ///
    /// # Errors
    ///
    /// [`Refusal::Outside`] where `t` is not below the track's total.
    pub fn sample_at(&self, t: MediaTime) -> Result<SampleAt, Refusal> {
        ffi::indexed_sample_at(self.opened.lent, &self.opened.handle, &self.index, t.0).map(SampleAt::of)
    }
}

impl fmt::Debug for Indexed<'_> {
    /// The track's ID; the numbers of an index would be no help.
    fn fmt(&self, f: &mut fmt::Formatter<'_>) -> fmt::Result {
        f.debug_struct("Indexed").field("id", &self.opened.id()).finish_non_exhaustive()
    }
}
