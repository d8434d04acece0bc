//! Reading a film with parts left out: a copy of its moov in which those atoms are named `free`, which every reader skips.
use crate::moov::Moov;
use crate::refusal::Refusal;
use crate::units::TrackId;
use std::error::Error;
use std::fmt;
use std::iter;
use std::ops::Range;
use std::str::FromStr;

/// The bytes of an atom's header inside a moov.
const HEADER: usize = 8;

/// A part of a film that is left out. It is displayed as the program takes it, `edits` or `track=2`, and made of that text.
#[non_exhaustive]
#[derive(Clone, Copy, Debug, PartialEq, Eq, Hash)]
pub enum LeaveOut {
    /// The edit lists of all tracks.
    Edits,
    /// The track with that ID.
    Track(TrackId),
}

impl Moov {
    /// A copy in which the `edts` or `trak` atoms of these parts are named `free`. No byte moves and no table changes, so that
    /// every other answer is the film's own. An edit list that is not there is left out already.
    ///
    /// ```
    /// use chaldoref::{LeaveOut, Moov, Movie, Refusal, TrackId};
    ///
    /// # std::env::set_current_dir("../..")?;
    /// let moov = Moov::read(std::fs::File::open("films/two-hoses.mov")?)?;
    /// let second = moov.leaving_out(&[LeaveOut::Track(TrackId(1))])?;
    /// assert_eq!(Movie::open(&second)?.tracks(), &Movie::open(&moov)?.tracks()[1..]);
    /// assert_eq!(moov.leaving_out(&[LeaveOut::Track(TrackId(7))]), Err(Refusal::NoTrack));
    /// # Ok::<(), Box<dyn std::error::Error>>(())
    /// ```
    ///
    /// # Errors
    ///
    /// [`Refusal::NoTrack`] where no track has an ID that is to be left out.
    pub fn leaving_out(&self, parts: &[LeaveOut]) -> Result<Moov, Refusal> {
        let mut copy = self.clone();
        for part in parts {
            let places = self.places_of(*part);
            if places.is_empty() && *part != LeaveOut::Edits {
                return Err(Refusal::NoTrack);
            }
            for place in places {
                copy.bytes[place + 4..place + HEADER].copy_from_slice(b"free");
            }
        }
        Ok(copy)
    }

    /// Where the atoms of a part begin.
    fn places_of(&self, part: LeaveOut) -> Vec<usize> {
        let bytes = &self.bytes;
        let tracks = children(bytes, 0..bytes.len()).filter(|atom| atom.kind == *b"trak");
        match part {
            LeaveOut::Track(id) => {
                tracks.filter(|trak| track_id(bytes, trak) == Some(id)).map(|trak| trak.start()).collect()
            }
            LeaveOut::Edits => {
                let edits = |trak: Atom| children(bytes, trak.place).filter(|atom| atom.kind == *b"edts");
                tracks.flat_map(edits).map(|atom| atom.start()).collect()
            }
        }
    }
}

/// An atom, with its header.
struct Atom {
    kind: [u8; 4],
    place: Range<usize>,
}

impl Atom {
    fn start(&self) -> usize {
        self.place.start
    }
}

/// The atoms inside one, as far as their sizes are right: where one is not, the film is refused 2 with them and without.
fn children(bytes: &[u8], parent: Range<usize>) -> impl Iterator<Item = Atom> + '_ {
    // Only the moov itself, which stands at top level, may have a size of 64 bits.
    let header = if number(bytes, parent.start) == Some(1) { 2 * HEADER } else { HEADER };
    let mut start = parent.start + header;
    iter::from_fn(move || {
        let size = usize::try_from(number(bytes, start)?).ok().filter(|size| *size >= HEADER)?;
        let end = start.checked_add(size).filter(|end| *end <= parent.end)?;
        let atom = Atom { kind: *bytes.get(start + 4..end)?.first_chunk()?, place: start..end };
        start = end;
        Some(atom)
    })
}

/// The ID that a track's header has, of version 1 too.
fn track_id(bytes: &[u8], trak: &Atom) -> Option<TrackId> {
    let tkhd = children(bytes, trak.place.clone()).find(|atom| atom.kind == *b"tkhd")?;
    let body = bytes.get(tkhd.place)?.get(HEADER..)?;
    number(body, if body.first() == Some(&1) { 20 } else { 12 }).map(TrackId)
}

/// The 32-bit number at a place.
fn number(bytes: &[u8], place: usize) -> Option<u32> {
    bytes.get(place..)?.first_chunk().map(|four| u32::from_be_bytes(*four))
}

impl fmt::Display for LeaveOut {
    fn fmt(&self, f: &mut fmt::Formatter<'_>) -> fmt::Result {
        match self {
            LeaveOut::Edits => f.pad("edits"),
            LeaveOut::Track(id) => f.pad(&format!("track={id}")),
        }
    }
}

impl FromStr for LeaveOut {
    type Err = ParseLeaveOutError;

    fn from_str(text: &str) -> Result<LeaveOut, ParseLeaveOutError> {
        if text == "edits" {
            return Ok(LeaveOut::Edits);
        }
        let digits = text.strip_prefix("track=").filter(|digits| digits.bytes().all(|c| c.is_ascii_digit()));
        digits.and_then(|digits| digits.parse().ok()).map(LeaveOut::Track).ok_or(ParseLeaveOutError)
    }
}

/// The error that a text names no part of a film that can be left out.
#[non_exhaustive]
#[derive(Clone, Copy, Debug, PartialEq, Eq, Hash)]
pub struct ParseLeaveOutError;

impl fmt::Display for ParseLeaveOutError {
    fn fmt(&self, f: &mut fmt::Formatter<'_>) -> fmt::Result {
        f.pad("what can be left out is edits, or track=ID with the ID of a track")
    }
}

impl Error for ParseLeaveOutError {}
