//! Slips, which know nothing of movies.
use crate::ffi::{self, broken, promised};
use crate::refusal::Refusal;
use crate::room::room;
use crate::units::{ByteRange, MediaTime, TrackId};
use std::collections::TryReserveError;
use std::error::Error;
use std::fmt;
use std::ops::Range;

/// The most pairs that a slip has.
const MAX_PAIRS: usize = 1_048_576;

/// A slip that was read: the receipt that files which bytes of film belong to a stretch of a track.
///
/// ```
/// use chaldoref::{ByteRange, MediaTime, Refusal, Slip, TrackId};
///
/// let bytes = [0x01, 0x01, 0xD8, 0x04, 0x18, 0x49, 0x02, 0xCC, 0x08, 0x32, 0x84, 0x07, 0x46];
/// let slip = Slip::read(&bytes)?;
/// assert_eq!((slip.id, slip.scale, slip.a, slip.b), (TrackId(1), 600, MediaTime(24), MediaTime(73)));
/// assert_eq!(slip.pairs[1], ByteRange { offset: 900, length: 70 });
///
/// // Its last byte is missing, so it ends early: the place is its length.
/// let malformed = Slip::read(&bytes[..12]).unwrap_err();
/// assert_eq!((malformed.place, Refusal::from(malformed)), (12, Refusal::MalformedSlip));
/// # Ok::<(), Refusal>(())
/// ```
#[non_exhaustive]
#[derive(Clone, Debug, PartialEq, Eq, Hash)]
pub struct Slip {
    /// The track that is filed. It is not 0.
    pub id: TrackId,
    /// The time scale of the media times: units a second. It is not 0.
    pub scale: u32,
    /// Where the stretch starts.
    pub a: MediaTime,
    /// Where it ends: the first time after it. It is above `a`.
    pub b: MediaTime,
    /// The bytes, at least one range. Nothing ties them to a film or to each other.
    pub pairs: Vec<ByteRange>,
}

/// Refusal 17 of bytes that are no slip, and where they go wrong.
#[non_exhaustive]
#[derive(Clone, Copy, Debug, PartialEq, Eq, Hash)]
pub struct MalformedSlip {
    /// The first fault, counted in bytes from 0: the first byte of the first number that breaks a rule, the slip's
    /// length if it ends early, or the first surplus byte.
    pub place: usize,
}

impl From<MalformedSlip> for Refusal {
    fn from(_: MalformedSlip) -> Refusal {
        Refusal::MalformedSlip
    }
}

impl fmt::Display for MalformedSlip {
    fn fmt(&self, f: &mut fmt::Formatter<'_>) -> fmt::Result {
        write!(f, "{}, at place {}", Refusal::MalformedSlip, self.place)
    }
}

impl Error for MalformedSlip {}

/// Room for the pairs of a slip of these bytes: each number of a pair takes a byte at least.
fn room_for(bytes: &[u8]) -> Result<Vec<ByteRange>, TryReserveError> {
    room((bytes.len() / 2).min(MAX_PAIRS))
}

/// Leaves the pairs that were read, or tells the place of the fault.
fn numbers(
    answered: Result<(), Refusal>,
    count: u64,
    place: u64,
    pairs: &mut Vec<ByteRange>,
) -> Result<(), MalformedSlip> {
    match answered {
        Ok(()) => pairs.truncate(promised(count)),
        Err(Refusal::MalformedSlip) => return Err(MalformedSlip { place: promised(place) }),
        Err(_) => broken(),
    }
    Ok(())
}

impl Slip {
    /// A slip of these numbers, of which nothing is checked.
    #[must_use]
    pub fn new(id: TrackId, scale: u32, time: Range<MediaTime>, pairs: Vec<ByteRange>) -> Slip {
        Slip { id, scale, a: time.start, b: time.end, pairs }
    }

    /// Reads a slip of form 1, which must take up all of the bytes. [`AnySlip::read`] reads both forms.
    ///
    /// # Errors
    ///
    /// Where the bytes are no slip: the place of the first fault.
    ///
    /// # Panics
    ///
    /// Where there is no memory for its pairs, which [`Slip::try_read`] tells.
    pub fn read(bytes: &[u8]) -> Result<Slip, MalformedSlip> {
        Slip::try_read(bytes).expect("there is memory for a slip's pairs")
    }

    /// The same without a panic.
    ///
    /// # Errors
    ///
    /// The outer error is that there is no memory for the pairs, the inner one that of [`Slip::read`].
    pub fn try_read(bytes: &[u8]) -> Result<Result<Slip, MalformedSlip>, TryReserveError> {
        let mut pairs = room_for(bytes)?;
        let (answered, [id, scale, a, b, count, place]) = ffi::read_slip(bytes, &mut pairs);
        Ok(numbers(answered, count, place, &mut pairs).map(|()| {
            let time = MediaTime(promised(a))..MediaTime(promised(b));
            Slip::new(TrackId(promised(id)), promised(scale), time, pairs)
        }))
    }

    /// The film time that is filed, from `a` to `b`, in units of the slip's time scale.
    #[must_use]
    pub fn film_time(&self) -> u32 {
        self.b.0.saturating_sub(self.a.0)
    }

    /// The total of the pairs' lengths.
    #[must_use]
    pub fn bytes(&self) -> u64 {
        ByteRange::total(&self.pairs)
    }
}

/// A slip of either form that was read. Form 2 is written where an offset or a length is 2^32 or more, and any of its
/// numbers may be that great.
///
/// ```
/// use chaldoref::{AnySlip, ByteRange, Slip};
///
/// // One pair: ten bytes from byte 4,294,967,296 on.
/// let bytes = [0x02, 0x01, 0xD8, 0x04, 0x18, 0x49, 0x01, 0x80, 0x80, 0x80, 0x80, 0x10, 0x0A];
/// let slip = AnySlip::read(&bytes).unwrap();
/// assert_eq!((slip.form, &slip.pairs[..]), (2, &[ByteRange { offset: 1 << 32, length: 10 }][..]));
/// assert!(Slip::read(&bytes).is_err());
/// ```
#[non_exhaustive]
#[derive(Clone, Debug, PartialEq, Eq, Hash)]
pub struct AnySlip {
    /// The form that it is written in, 1 or 2.
    pub form: u32,
    /// The ID of the track that is filed. It is not 0.
    pub id: u64,
    /// The time scale of the media times: units a second. It is not 0.
    pub scale: u64,
    /// Where the stretch starts.
    pub a: u64,
    /// Where it ends: the first time after it. It is above `a`.
    pub b: u64,
    /// The bytes, at least one range. Nothing ties them to a film or to each other.
    pub pairs: Vec<ByteRange>,
}

impl AnySlip {
    /// Reads a slip of form 1 or 2, which must take up all of the bytes.
    ///
    /// # Errors
    ///
    /// Where the bytes are no slip: the place of the first fault.
    ///
    /// # Panics
    ///
    /// Where there is no memory for its pairs, which [`AnySlip::try_read`] tells.
    pub fn read(bytes: &[u8]) -> Result<AnySlip, MalformedSlip> {
        AnySlip::try_read(bytes).expect("there is memory for a slip's pairs")
    }

    /// The same without a panic.
    ///
    /// # Errors
    ///
    /// The outer error is that there is no memory for the pairs, the inner one that of [`AnySlip::read`].
    pub fn try_read(bytes: &[u8]) -> Result<Result<AnySlip, MalformedSlip>, TryReserveError> {
        let mut pairs = room_for(bytes)?;
        let (answered, [id, scale, a, b, count, place]) = ffi::read_any_slip(bytes, &mut pairs);
        Ok(numbers(answered, count, place, &mut pairs).map(|()| {
            // The form is a number of one byte.
            let form = bytes.first().copied().map_or_else(|| broken(), u32::from);
            AnySlip { form, id, scale, a, b, pairs }
        }))
    }

    /// From `a` to `b`, where a track can have these times.
    #[must_use]
    pub fn time(&self) -> Option<Range<MediaTime>> {
        let time = |n: u64| u32::try_from(n).ok().map(MediaTime);
        Some(time(self.a)?..time(self.b)?)
    }

    /// The film time that is filed, from `a` to `b`, in units of the slip's time scale.
    #[must_use]
    pub fn film_time(&self) -> u64 {
        self.b.saturating_sub(self.a)
    }

    /// The total of the pairs' lengths; the greatest number of 64 bits where that is more.
    #[must_use]
    pub fn bytes(&self) -> u64 {
        ByteRange::total(&self.pairs)
    }
}
