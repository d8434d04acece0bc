//! Numbers that must not stand for each other, and the byte ranges that movies and slips share.
use std::error::Error;
use std::fmt;
use std::num::ParseIntError;
use std::str::FromStr;

/// A time of the movie, in units of the movie's time scale. Only [`Movie::media_time`](crate::Movie::media_time) turns
/// it into a [`MediaTime`].
#[repr(transparent)]
#[derive(Clone, Copy, Debug, Default, PartialEq, Eq, PartialOrd, Ord, Hash)]
pub struct MovieTime(pub u32);

/// A time of a track's media, in units of the track's own time scale.
///
/// ```compile_fail
/// let shown: chaldoref::MediaTime = chaldoref::MovieTime(60);
/// ```
#[repr(transparent)]
#[derive(Clone, Copy, Debug, Default, PartialEq, Eq, PartialOrd, Ord, Hash)]
pub struct MediaTime(pub u32);

/// A track's ID, which is never 0 in an accepted movie.
#[repr(transparent)]
#[derive(Clone, Copy, Debug, Default, PartialEq, Eq, PartialOrd, Ord, Hash)]
pub struct TrackId(pub u32);

/// A four-character code, as the big-endian number that it is in the file.
///
/// It is displayed as its characters where all four are printable ASCII, and as `0x` and eight digits otherwise.
///
/// ```
/// use chaldoref::FourCC;
///
/// assert_eq!(FourCC::from_bytes(*b"vide"), FourCC(0x7669_6465));
/// assert_eq!(FourCC(0x7669_6465).to_string(), "vide");
/// assert_eq!(FourCC(0xa963_7079).to_string(), "0xa9637079");
/// assert_eq!(format!("{:?}", FourCC(0x7669_6465)), "FourCC(vide)");
/// assert_eq!(["vide".parse(), "0xa9637079".parse()], [Ok(FourCC::from(*b"vide")), Ok(FourCC(0xa963_7079))]);
/// ```
#[repr(transparent)]
#[derive(Clone, Copy, Default, PartialEq, Eq, PartialOrd, Ord, Hash)]
pub struct FourCC(pub u32);

/// Some bytes of a film: as many as `length` from `offset` on, counted from the file's first byte.
#[repr(C)]
#[derive(Clone, Copy, Debug, Default, PartialEq, Eq, Hash)]
pub struct ByteRange {
    /// The first byte's place in the file.
    pub offset: u64,
    /// The number of bytes; it may be 0.
    pub length: u64,
}

impl MediaTime {
    /// This time in seconds, in a track of that time scale. A scale of 0, which no accepted movie or slip has, gives
    /// no finite number.
    #[must_use]
    pub fn seconds(self, scale: u32) -> f64 {
        f64::from(self.0) / f64::from(scale)
    }
}

impl FourCC {
    /// The code of four characters, such as `*b"vide"`.
    #[must_use]
    pub const fn from_bytes(bytes: [u8; 4]) -> FourCC {
        FourCC(u32::from_be_bytes(bytes))
    }

    /// The four characters.
    #[must_use]
    pub const fn to_bytes(self) -> [u8; 4] {
        self.0.to_be_bytes()
    }
}

impl ByteRange {
    /// These bytes of a film, or `None` where the range passes its end. A range of a [`Stretch`](crate::Stretch) lies
    /// within its own film; one that was read from a slip need not lie within any.
    #[must_use]
    pub fn of(self, film: &[u8]) -> Option<&[u8]> {
        let (offset, length) = (usize::try_from(self.offset).ok()?, usize::try_from(self.length).ok()?);
        film.get(offset..)?.get(..length)
    }

    /// The lengths of these ranges, added up; the greatest number of 64 bits where that is more.
    pub(crate) fn total(ranges: &[ByteRange]) -> u64 {
        ranges.iter().fold(0, |sum: u64, range| sum.saturating_add(range.length))
    }
}

/// What times and IDs share: they are made of a plain number or of its decimal text, and give them back.
macro_rules! numbers {
    ($($name:ident)*) => { $(
        impl From<u32> for $name {
            fn from(number: u32) -> $name {
                $name(number)
            }
        }

        impl From<$name> for u32 {
            fn from(own: $name) -> u32 {
                own.0
            }
        }

        impl FromStr for $name {
            type Err = ParseIntError;

            fn from_str(text: &str) -> Result<$name, ParseIntError> {
                text.parse().map($name)
            }
        }

        impl fmt::Display for $name {
            fn fmt(&self, f: &mut fmt::Formatter<'_>) -> fmt::Result {
                self.0.fmt(f)
            }
        }
    )* };
}

numbers!(MovieTime MediaTime TrackId);

impl fmt::Display for FourCC {
    fn fmt(&self, f: &mut fmt::Formatter<'_>) -> fmt::Result {
        let bytes = self.to_bytes();
        match std::str::from_utf8(&bytes) {
            Ok(text) if printable(bytes) => f.pad(text),
            _ => f.pad(&format!("{:#010x}", self.0)),
        }
    }
}

impl fmt::Debug for FourCC {
    /// What is displayed, after the type's name.
    fn fmt(&self, f: &mut fmt::Formatter<'_>) -> fmt::Result {
        write!(f, "FourCC({self})")
    }
}

impl From<u32> for FourCC {
    fn from(number: u32) -> FourCC {
        FourCC(number)
    }
}

impl From<FourCC> for u32 {
    fn from(code: FourCC) -> u32 {
        code.0
    }
}

impl From<[u8; 4]> for FourCC {
    fn from(bytes: [u8; 4]) -> FourCC {
        FourCC::from_bytes(bytes)
    }
}

impl From<FourCC> for [u8; 4] {
    fn from(code: FourCC) -> [u8; 4] {
        code.to_bytes()
    }
}

impl FromStr for FourCC {
    type Err = ParseFourCCError;

    /// Takes what is displayed: four printable ASCII characters, or `0x` and eight digits.
    fn from_str(text: &str) -> Result<FourCC, ParseFourCCError> {
        match text.as_bytes().try_into() {
            Ok(bytes) if printable(bytes) => Ok(FourCC::from_bytes(bytes)),
            Ok(_) => Err(ParseFourCCError),
            Err(_) => eight_digits(text).map(FourCC).ok_or(ParseFourCCError),
        }
    }
}

fn printable(bytes: [u8; 4]) -> bool {
    bytes.iter().all(|c| (b' '..=b'~').contains(c))
}

/// The number after `0x`, in eight digits. A sign, which `from_str_radix` would take, is no digit.
fn eight_digits(text: &str) -> Option<u32> {
    let digits = text.strip_prefix("0x")?;
    let all = digits.len() == 8 && digits.bytes().all(|c| c.is_ascii_hexdigit());
    u32::from_str_radix(digits, 16).ok().filter(|_| all)
}

/// The error that a text is no four-character code.
#[non_exhaustive]
#[derive(Clone, Copy, Debug, PartialEq, Eq, Hash)]
pub struct ParseFourCCError;

impl fmt::Display for ParseFourCCError {
    fn fmt(&self, f: &mut fmt::Formatter<'_>) -> fmt::Result {
        f.pad("a code is four printable ASCII characters, or 0x and eight digits")
    }
}

impl Error for ParseFourCCError {}
