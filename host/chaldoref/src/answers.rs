//! The answers of a movie. Those that may get more fields in later versions cannot be written out field by field
//! elsewhere; they have a default or a constructor instead.
use crate::ffi::{promised, SAMPLE_NUMBERS};
use crate::units::{ByteRange, FourCC, MediaTime, MovieTime, TrackId};
use std::ops::{Range, RangeInclusive};

/// A track of the track list.
#[repr(C)]
#[non_exhaustive]
#[derive(Clone, Copy, Debug, Default, PartialEq, Eq, Hash)]
pub struct Track {
    /// Its ID, which no other track of the movie has.
    pub id: TrackId,
    /// What its handler says it is, such as `vide` or `soun`.
    pub subtype: FourCC,
    /// The time scale of its media: units a second.
    pub scale: u32,
    /// The total of its samples' durations, which is where its media ends.
    pub total: MediaTime,
    /// The number of its samples.
    pub samples: u32,
    /// The number of its chunks.
    pub chunks: u32,
    /// The number of its edits; 0 without an edit list.
    pub edits: u32,
    /// The duration that the file stores for its media. Older cameras store one that is not the total; then no slip is
    /// written of the film.
    pub stored: MediaTime,
}

impl Track {
    /// The length of an output that is enough for the slip of any stretch of this track: 24 bytes before the pairs, and
    /// nine for each of their numbers, which are below 2^63.
    #[must_use]
    pub fn slip_room(&self) -> usize {
        24 + 18 * self.chunks as usize
    }

    /// Whether the stored duration is another than the total, for which the slip writer refuses the film
    /// ([`Refusal::StoredDuration`](crate::Refusal::StoredDuration)).
    #[must_use]
    pub fn has_other_duration(&self) -> bool {
        self.stored != self.total
    }
}

/// A sample of a track.
#[non_exhaustive]
#[derive(Clone, Copy, Debug, Default, PartialEq, Eq, Hash)]
pub struct Sample {
    /// Where it starts: the total of the durations before it.
    pub decode: MediaTime,
    /// How long it lasts; it may be 0.
    pub duration: u32,
    /// When it is shown: the decode time plus the sample's offset, which may be negative.
    pub composition: i64,
    /// Whether it is a sync sample.
    pub sync: bool,
    /// The ID of its sample description, from 1.
    pub description: u32,
    /// The number of its chunk, from 1.
    pub chunk: u32,
    /// The place of its first byte in the file.
    pub offset: u64,
    /// The number of its bytes; it may be 0.
    pub size: u32,
}

impl Sample {
    /// The sample of the numbers that the library answers.
    pub(crate) fn of(numbers: [i64; SAMPLE_NUMBERS]) -> Sample {
        let [decode, duration, composition, sync, description, chunk, offset, size] = numbers;
        Sample {
            decode: MediaTime(promised(decode)),
            duration: promised(duration),
            composition,
            sync: sync == 1,
            description: promised(description),
            chunk: promised(chunk),
            offset: promised(offset),
            size: promised(size),
        }
    }

    /// Where its bytes are in the file.
    #[must_use]
    pub fn range(&self) -> ByteRange {
        ByteRange { offset: self.offset, length: self.size.into() }
    }
}

/// The sample at a media time.
#[non_exhaustive]
#[derive(Clone, Copy, Debug, Default, PartialEq, Eq, Hash)]
pub struct SampleAt {
    /// Its number, from 1.
    pub sample: u32,
    /// How many entries of the track's stts were looked at: the position, from 1, of the entry that holds the sample.
    pub entry: u32,
}

impl SampleAt {
    /// The sample of the numbers that the library answers.
    pub(crate) fn of([sample, entry]: [u64; 2]) -> SampleAt {
        SampleAt { sample: promised(sample), entry: promised(entry) }
    }

    /// That sample, in that entry.
    #[must_use]
    pub fn new(sample: u32, entry: u32) -> SampleAt {
        SampleAt { sample, entry }
    }
}

/// What a track shows at a movie time. There is no third case.
#[derive(Clone, Copy, Debug, PartialEq, Eq, Hash)]
pub enum Shown {
    /// The media at that time.
    At(MediaTime),
    /// Nothing: the movie time falls in an empty edit.
    Nothing,
}

impl Shown {
    /// What is shown by the numbers that the library answers.
    pub(crate) fn of(numbers: [u64; 2]) -> Shown {
        match numbers {
            [0, _] => Shown::Nothing,
            [_, media] => Shown::At(MediaTime(promised(media))),
        }
    }
}

/// Whether a film has fragments. Samples in fragments are not read, so that a film that has them is read in part.
#[non_exhaustive]
#[derive(Clone, Copy, Debug, PartialEq, Eq, Hash)]
pub struct Fragments {
    /// The moov has an mvex: the film may have fragments, in this file or in others.
    pub announced: bool,
    /// The file has a moof at top level. It is not known of a moov that is lent alone.
    pub present: bool,
}

/// What the movie's own header says.
#[non_exhaustive]
#[derive(Clone, Copy, Debug, Default, PartialEq, Eq, Hash)]
pub struct Header {
    /// The movie's time scale: units of movie time a second. It is not 0.
    pub scale: u32,
    /// The duration that the file stores for the movie. Nothing ties it to the tracks.
    pub stored: MovieTime,
}

/// An entry of a track's edit list.
#[repr(C)]
#[derive(Clone, Copy, Debug, Default, PartialEq, Eq, Hash)]
pub struct Edit {
    /// How long it lasts, in units of the movie's time scale.
    pub duration: i64,
    /// The media time at which it begins, in units of the track's time scale; -1 where it shows nothing.
    pub media: i64,
    /// The rate, times 65,536.
    pub rate: i64,
}

impl Edit {
    /// The media time at which it begins, if it shows media.
    #[must_use]
    pub fn start(&self) -> Option<MediaTime> {
        u32::try_from(self.media).ok().map(MediaTime)
    }
}

/// The bytes of a stretch of a track.
#[non_exhaustive]
#[derive(Clone, Debug, Default, PartialEq, Eq, Hash)]
pub struct Stretch {
    /// One range for each chunk touched, in chunk order.
    pub pairs: Vec<ByteRange>,
    /// The total of their lengths.
    pub bytes: u64,
}

impl Stretch {
    /// The stretch of these ranges, whose lengths are added up.
    #[must_use]
    pub fn new(pairs: Vec<ByteRange>) -> Stretch {
        let bytes = ByteRange::total(&pairs);
        Stretch { pairs, bytes }
    }
}

/// How much of lent room a stretch has filled, and its bytes.
#[non_exhaustive]
#[derive(Clone, Copy, Debug, Default, PartialEq, Eq, Hash)]
pub struct StretchSize {
    /// The number of ranges, which are the first of the room.
    pub pairs: usize,
    /// The total of their lengths.
    pub bytes: u64,
}

/// The part-ID of the records of a profile that [`Movie::check_profile`](crate::Movie::check_profile) judges.
pub const UNIVERSAL_PART: u32 = 0x2020_2020;

/// A record of a stored profile.
#[repr(C)]
#[derive(Clone, Copy, Debug, Default, PartialEq, Eq, Hash)]
pub struct ProfileRecord {
    /// The part-ID.
    pub part: u32,
    /// The feature's code.
    pub code: FourCC,
    /// The feature's value as the file has it; [`Movie::check_profile`](crate::Movie::check_profile) judges it.
    pub value: u32,
}

/// The second of a track that has the highest bit rate: a run of samples that lasts a second or as little more as can
/// be; the whole track where it is shorter than a second.
#[non_exhaustive]
#[derive(Clone, Debug, PartialEq, Eq, Hash)]
pub struct Peak {
    /// The numbers of its samples, from 1.
    pub samples: RangeInclusive<u32>,
    /// From where its first sample starts up to where its last one ends.
    pub time: Range<MediaTime>,
}

impl Peak {
    /// The peak of these samples, which have that time.
    #[must_use]
    pub fn new(samples: RangeInclusive<u32>, time: Range<MediaTime>) -> Peak {
        Peak { samples, time }
    }
}
