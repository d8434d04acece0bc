//! A slip beside the film that it should be of. The library reads the slip and tells the byte ranges of its stretch;
//! here they are compared.
use crate::commands::hash_name;
use crate::failure::{in_words, Failure};
use crate::fault::Fault;
use crate::film::Film;
use crate::input::{self, STANDARD};
use crate::retyped;
use crate::sha256;
use chaldoref::{AnySlip, ByteRange, Movie, Track, TrackId};
use std::cell::RefCell;
use std::collections::HashMap;
use std::ffi::OsStr;
use std::io;
use std::path::Path;

/// A slip that was checked.
pub struct Checked<'n> {
    pub name: &'n OsStr,
    /// The slip, where it could be read. Its pairs are not kept.
    pub slip: Option<AnySlip>,
    pub wrong: Option<Wrong>,
    /// Whether a hash beside the slip is that of the film's bytes.
    pub hashed: bool,
    /// Which retyping makes it the film's, where there is one.
    pub retyped: Option<String>,
}

/// The first thing that is wrong with a slip.
pub struct Wrong {
    pub kind: Kind,
    /// In words.
    pub reason: String,
    /// Where a malformed slip goes wrong.
    pub place: Option<usize>,
}

#[derive(Clone, Copy, Debug, PartialEq)]
pub enum Kind {
    Unread,
    Malformed,
    NoTrack,
    OtherScale,
    Outside,
    OtherPairs,
    OtherBytes,
}

impl Kind {
    /// What documents call it.
    pub fn name(self) -> &'static str {
        match self {
            Kind::Unread => "unread",
            Kind::Malformed => "malformed",
            Kind::NoTrack => "track",
            Kind::OtherScale => "scale",
            Kind::Outside => "stretch",
            Kind::OtherPairs => "pairs",
            Kind::OtherBytes => "sha256",
        }
    }
}

impl Wrong {
    fn new(kind: Kind, reason: String) -> Wrong {
        Wrong { kind, reason, place: None }
    }
}

impl From<io::Error> for Wrong {
    fn from(error: io::Error) -> Wrong {
        Wrong::new(Kind::Unread, format!("cannot be read: {}", in_words(&error)))
    }
}

impl From<Fault> for Wrong {
    fn from(fault: Fault) -> Wrong {
        let reason = fault.hint().map_or_else(|| format!("malformed at {}", fault.line()), String::from);
        Wrong { kind: Kind::Malformed, reason, place: Some(fault.place) }
    }
}

impl Checked<'_> {
    /// Reads the slip in the file of that name and compares it with the film, and the film's bytes with the hash beside it.
    pub fn of<'n>(film: &Film, movie: &Movie, name: &'n OsStr) -> Result<Checked<'n>, Failure> {
        let (mut checked, bytes) = Checked::compared(film, movie, name)?;
        if checked.wrong.as_ref().is_some_and(|wrong| !matches!(wrong.kind, Kind::OtherBytes | Kind::Unread)) {
            let known = RefCell::default();
            checked.retyped = retyped::as_the_films(&bytes, |slip| is_the_films(movie, slip, &known).unwrap_or(false));
        }
        Ok(checked)
    }

    /// The same without a search for what was mistyped; and the bytes of the slip.
    pub fn compared<'n>(film: &Film, movie: &Movie, name: &'n OsStr) -> Result<(Checked<'n>, Vec<u8>), Failure> {
        let mut checked = Checked { name, slip: None, wrong: None, hashed: false, retyped: None };
        let bytes = match read(name) {
            Ok(bytes) => bytes,
            Err(error) => return Ok((Checked { wrong: Some(error.into()), ..checked }, Vec::new())),
        };
        match parse(&bytes) {
            Ok(mut slip) => {
                checked.wrong = compare(movie, &slip).err();
                if checked.wrong.is_none() {
                    (checked.hashed, checked.wrong) = compare_bytes(film, name, &slip)?;
                }
                slip.pairs = Vec::new();
                checked.slip = Some(slip);
            }
            Err(wrong) => checked.wrong = Some(wrong),
        }
        Ok((checked, bytes))
    }

    /// The slip, where nothing is wrong with it.
    pub fn good(&self) -> Option<&AnySlip> {
        self.slip.as_ref().filter(|_| self.wrong.is_none())
    }

    pub fn is_unread(&self) -> bool {
        self.wrong.as_ref().is_some_and(|wrong| wrong.kind == Kind::Unread)
    }
}

fn read(name: &OsStr) -> io::Result<Vec<u8>> {
    input::slip(input::read(name)?)
}

fn parse(bytes: &[u8]) -> Result<AnySlip, Wrong> {
    AnySlip::try_read(bytes).map_err(io::Error::from)?.map_err(|malformed| Fault::of(bytes, malformed).into())
}

/// Whether a hash is kept beside the slip and is that of the film's bytes; or what is wrong with it.
fn compare_bytes(film: &Film, name: &OsStr, slip: &AnySlip) -> Result<(bool, Option<Wrong>), Failure> {
    let beside = hash_name(name);
    if name == STANDARD || !Path::new(&beside).exists() {
        return Ok((false, None));
    }
    let wrong = |words: &str| Some(Wrong::new(Kind::OtherBytes, format!("{} {words}", input::named(&beside))));
    let text = match input::read(&beside) {
        Ok(text) => text,
        Err(error) => return Ok((false, wrong(&format!("cannot be read: {}", in_words(&error))))),
    };
    let Some(kept) = sha256::of_line(&text) else {
        return Ok((false, wrong("has no line of sha256sum")));
    };
    let agrees = film.hash(&slip.pairs)? == kept;
    Ok((
        agrees,
        if agrees {
            None
        } else {
            wrong("is not the sha256 of the film's bytes: the pictures were changed, or it is of another slip")
        },
    ))
}

/// The track is there, the scale is its own, and the pairs are those of the stretch from a to b.
fn compare(movie: &Movie, slip: &AnySlip) -> Result<(), Wrong> {
    let no_track = || Wrong::new(Kind::NoTrack, format!("the movie has no track {}", slip.id));
    let id = u32::try_from(slip.id).map(TrackId);
    let track = id.ok().and_then(|id| movie.track(id)).ok_or_else(no_track)?;
    if slip.scale != u64::from(track.scale) {
        let reason = format!("its scale is {}, and the track's is {}", slip.scale, track.scale);
        return Err(Wrong::new(Kind::OtherScale, reason));
    }
    // In a slip a is below b, so that nothing is refused but an end past the total.
    let time = slip.time().ok_or_else(|| outside(slip.b, track))?;
    let stretch = movie.stretch(track.id, time).map_err(|_| outside(slip.b, track))?;
    match difference(&slip.pairs, &stretch.pairs) {
        Some(reason) => Err(Wrong::new(Kind::OtherPairs, reason)),
        None => Ok(()),
    }
}

/// The film's pairs of stretches that were asked, by track, a, b and their number; nothing where the film has another number.
type Known = RefCell<HashMap<(TrackId, u64, u64, usize), Option<Vec<ByteRange>>>>;

/// The same for many slips of a few pairs each: no room is lent for more than the slip has, and each stretch is asked once.
fn is_the_films(movie: &Movie, slip: &AnySlip, known: &Known) -> Option<bool> {
    let track = movie.track(TrackId(u32::try_from(slip.id).ok()?))?;
    let (time, count) = (slip.time()?, slip.pairs.len());
    let mut known = known.borrow_mut();
    let pairs = known.entry((track.id, slip.a, slip.b, count)).or_insert_with(|| {
        let mut room = vec![ByteRange::default(); count];
        let size = movie.stretch_into(track.id, time, &mut room).ok()?;
        (size.pairs == count).then_some(room)
    });
    Some(slip.scale == u64::from(track.scale) && pairs.as_ref() == Some(&slip.pairs))
}

fn outside(b: u64, track: &Track) -> Wrong {
    Wrong::new(Kind::Outside, format!("b is {b}, and the track ends at {}", track.total))
}

/// Where the pairs of a slip differ first from the film's.
fn difference(slips: &[ByteRange], films: &[ByteRange]) -> Option<String> {
    if slips.len() != films.len() {
        let s = if slips.len() == 1 { "" } else { "s" };
        return Some(format!("it has {} pair{s}, and the film has {} from a to b", slips.len(), films.len()));
    }
    let place = slips.iter().zip(films).position(|(slip, film)| slip != film)?;
    let shown = |pair: &ByteRange| format!("{} bytes from byte {}", pair.length, pair.offset);
    Some(format!("pair {} is {}, and the film's is {}", place + 1, shown(&slips[place]), shown(&films[place])))
}

#[cfg(test)]
mod tests {
    use super::*;

    fn pairs(numbers: &[(u64, u64)]) -> Vec<ByteRange> {
        numbers.iter().map(|(offset, length)| ByteRange { offset: *offset, length: *length }).collect()
    }

    #[test]
    fn differences() {
        let film = pairs(&[(1100, 50), (900, 70)]);
        let said = |numbers: &[(u64, u64)]| difference(&pairs(numbers), &film).unwrap_or_default();
        assert_eq!(said(&[(1100, 50), (900, 70)]), "");
        assert_eq!(said(&[(1100, 50)]), "it has 1 pair, and the film has 2 from a to b");
        assert_eq!(said(&[(1100, 50), (900, 70), (1, 1)]), "it has 3 pairs, and the film has 2 from a to b");
        assert_eq!(
            said(&[(1100, 50), (900, 69)]),
            "pair 2 is 69 bytes from byte 900, and the film's is 70 bytes from byte 900"
        );
        assert_eq!(
            said(&[(900, 70), (1100, 50)]),
            "pair 1 is 70 bytes from byte 900, and the film's is 50 bytes from byte 1100"
        );
    }
}
