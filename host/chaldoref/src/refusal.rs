//! The refusals of documents 01 and 02.
use crate::film::Film;
use crate::movie::{MAX_FILE_BYTES, MAX_LENGTH};
use std::error::Error;
use std::fmt;

/// Why a question is not answered: one of the refusals of documents 01 and 02, whose words [`Display`](fmt::Display) gives.
///
/// [`Debug`](fmt::Debug) gives the number and the words, so that a `main` that returns a refusal prints them.
///
/// Of a file the lowest number that applies is given, but that 19 is judged after 11 and before 12; then comes 14, then 15 or 18, then 16. In reading a slip 17 comes
/// before 16.
///
/// ```
/// use chaldoref::Refusal;
///
/// assert_eq!((Refusal::try_from(15), u32::from(Refusal::Outside)), (Ok(Refusal::Outside), 15));
/// assert_eq!(format!("{:?}", Refusal::EditList), "refused 13: an edit list is wrong");
/// assert_eq!(Refusal::try_from(22).unwrap_err().to_string(), "no refusal has the number 22");
/// ```
#[non_exhaustive]
#[derive(Clone, Copy, PartialEq, Eq, PartialOrd, Ord, Hash)]
pub enum Refusal {
    /// 1: the file is longer than 2,147,483,647 bytes; where the moov is lent alone, that one is, or the length of the file is
    /// above 2^63 - 1 or below the moov's.
    FileTooLong = 1,
    /// 2: an atom's size is wrong, passes its parent's end, or too few bytes for an atom remain.
    AtomSize = 2,
    /// 3: an atom is absent or occurs too often. Also for bytes that are no movie at all.
    AtomCount = 3,
    /// 4: an atom that is read has a version other than 0.
    LeafVersion = 4,
    /// 5: an atom that is read, or a profile, hasn't its size.
    LeafSize = 5,
    /// 6: there are too many tracks, samples, chunks, edits, descriptions, data references or profile records.
    OverLimit = 6,
    /// 7: a track ID is 0 or occurs twice.
    TrackIds = 7,
    /// 8: a movie or media time scale is 0.
    TimeScale = 8,
    /// 9: the sample tables contradict each other.
    Tables = 9,
    /// 10: sample or edit durations total over 4,294,967,295.
    TotalDuration = 10,
    /// 11: the stored duration of a track's media is not the total of its samples' durations. Only the slip writer
    /// refuses a film for it.
    StoredDuration = 11,
    /// 12: a chunk passes the file's end.
    PastEnd = 12,
    /// 13: an edit list is wrong.
    EditList = 13,
    /// 14: no track has that ID.
    NoTrack = 14,
    /// 15: the sample number, time or stretch lies outside.
    Outside = 15,
    /// 16: the lent room is shorter than the answer.
    NoRoom = 16,
    /// 17: a slip is malformed.
    MalformedSlip = 17,
    /// 18: the feature cannot be computed.
    NotComputed = 18,
    /// 19: a sample description names data in another file, or no such data reference.
    DataElsewhere = 19,
    /// 20: a film return would meet a thirty-third time scale.
    TooManyScales = 20,
    /// 21: a total of a film return would reach 2^64.
    TotalTooGreat = 21,
}

impl Refusal {
    /// Every refusal, in the order of their numbers.
    pub const ALL: &'static [Refusal] = &[
        Refusal::FileTooLong,
        Refusal::AtomSize,
        Refusal::AtomCount,
        Refusal::LeafVersion,
        Refusal::LeafSize,
        Refusal::OverLimit,
        Refusal::TrackIds,
        Refusal::TimeScale,
        Refusal::Tables,
        Refusal::TotalDuration,
        Refusal::StoredDuration,
        Refusal::PastEnd,
        Refusal::EditList,
        Refusal::NoTrack,
        Refusal::Outside,
        Refusal::NoRoom,
        Refusal::MalformedSlip,
        Refusal::NotComputed,
        Refusal::DataElsewhere,
        Refusal::TooManyScales,
        Refusal::TotalTooGreat,
    ];

    /// The refusal's number in documents 01 and 02, from 1.
    #[must_use]
    pub const fn number(self) -> u32 {
        self as u32
    }

    /// The refusal with that number, if there is one.
    #[must_use]
    pub fn from_number(number: u32) -> Option<Refusal> {
        Refusal::ALL.iter().copied().find(|refusal| refusal.number() == number)
    }

    /// When the documents give this refusal to a film that is lent that way. [`Display`](fmt::Display) has the words for a whole
    /// file; of a moov alone 1, 2 and 3 have further grounds, and which of those of 1 it is shows in the film's lengths.
    ///
    /// ```
    /// use chaldoref::{Film, Movie};
    ///
    /// let film = Film::Moov { moov: &[0; 100], length: 99 };
    /// let refusal = Movie::open(film).unwrap_err();
    /// assert_eq!(refusal.words_for(film), "the length of the file is below that of its moov");
    /// ```
    #[must_use]
    pub fn words_for(self, film: Film) -> &'static str {
        match (self, film) {
            (_, Film::Whole(_)) => self.words(),
            (Refusal::FileTooLong, Film::Moov { moov, length }) => too_long(moov.len() as u64, length),
            (Refusal::AtomSize, _) => {
                "an atom's size is wrong, passes its parent's end, or 1 to 7 bytes (under 16 for a 64-bit size) remain; \
                 or the lent bytes aren't one moov atom"
            }
            (Refusal::AtomCount, _) => "an atom is absent or occurs too often; or both offset tables or neither is there",
            _ => self.words(),
        }
    }

    /// When the documents give this refusal, in their words.
    const fn words(self) -> &'static str {
        match self {
            Refusal::FileTooLong => "the file is longer than 2,147,483,647 bytes",
            Refusal::AtomSize => {
                "an atom's size is wrong, passes its parent's end, or 1 to 7 bytes (under 16 for a 64-bit size) remain"
            }
            Refusal::AtomCount => "an atom is absent or occurs too often",
            Refusal::LeafVersion => "a read leaf has a body whose first byte is not 0",
            Refusal::LeafSize => "a read leaf or profile hasn't its size",
            Refusal::OverLimit => {
                "over 16 tracks, or in one track over 1,048,576 samples or chunks, 256 edits, 64 descriptions or \
                 64 references; in one profile over 64 records"
            }
            Refusal::TrackIds => "a track ID is 0 or occurs twice",
            Refusal::TimeScale => "a movie or media time scale is 0",
            Refusal::Tables => "sample tables contradict each other",
            Refusal::TotalDuration => "the sample durations, or a track's edit durations, total over 4,294,967,295",
            Refusal::StoredDuration => "the mdhd duration is not the total of the sample durations",
            Refusal::PastEnd => "a chunk's offset plus the sizes of its samples passes the file's end",
            Refusal::EditList => "an edit list is wrong",
            Refusal::NoTrack => "no track has that ID",
            Refusal::Outside => "the sample number is not in 1 to N, or the time or stretch lies outside",
            Refusal::NoRoom => "the lent room is shorter than the answer",
            Refusal::MalformedSlip => "a slip is malformed",
            Refusal::NotComputed => "the feature cannot be computed",
            Refusal::DataElsewhere => "a description names data elsewhere, or no such data reference",
            Refusal::TooManyScales => "a thirty-third time scale would be met",
            Refusal::TotalTooGreat => "a total would reach 2^64",
        }
    }
}

/// Which of its grounds refusal 1 of a moov alone has, by the lengths of the moov and of the file.
fn too_long(moov: u64, length: u64) -> &'static str {
    if moov > MAX_FILE_BYTES {
        "the moov is longer than 2,147,483,647 bytes"
    } else if length > MAX_LENGTH {
        "the length of the file is above 2^63 - 1"
    } else {
        "the length of the file is below that of its moov"
    }
}

impl fmt::Display for Refusal {
    fn fmt(&self, f: &mut fmt::Formatter<'_>) -> fmt::Result {
        f.pad(self.words())
    }
}

impl fmt::Debug for Refusal {
    fn fmt(&self, f: &mut fmt::Formatter<'_>) -> fmt::Result {
        write!(f, "refused {}: {}", self.number(), self.words())
    }
}

impl Error for Refusal {}

impl From<Refusal> for u32 {
    fn from(refusal: Refusal) -> u32 {
        refusal.number()
    }
}

impl TryFrom<u32> for Refusal {
    type Error = UnknownRefusal;

    fn try_from(number: u32) -> Result<Refusal, UnknownRefusal> {
        Refusal::from_number(number).ok_or(UnknownRefusal { number })
    }
}

/// The error that no refusal has a number.
#[non_exhaustive]
#[derive(Clone, Copy, Debug, PartialEq, Eq, Hash)]
pub struct UnknownRefusal {
    /// The number.
    pub number: u32,
}

impl fmt::Display for UnknownRefusal {
    fn fmt(&self, f: &mut fmt::Formatter<'_>) -> fmt::Result {
        write!(f, "no refusal has the number {}", self.number)
    }
}

impl Error for UnknownRefusal {}
