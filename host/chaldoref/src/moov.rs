//! The moov of a film, read from anything that reads and seeks.
use crate::ffi::{self, promised};
use crate::film::Film;
use crate::movie::MAX_FILE_BYTES;
use crate::refusal::Refusal;
use crate::room::room;
use crate::units::FourCC;
use std::error::Error;
use std::fmt;
use std::io::{self, ErrorKind, Read, Seek, SeekFrom};
use std::ops::Range;

/// As many bytes of an atom's header are looked at.
const HEADER: usize = 16;

/// As many bytes are read at once, so that small atoms that follow one another are not read one by one.
const WINDOW: usize = 4096;

/// The atom that has the film's own bytes.
const MDAT: FourCC = FourCC::from_bytes(*b"mdat");

/// The moov atom of a film, with its place and the length of its file. Of the film nothing else is read but the headers
/// of the atoms at top level, whatever its length.
///
/// ```
/// use chaldoref::{Moov, Movie, TrackId};
///
/// # std::env::set_current_dir("../..")?;
/// let moov = Moov::read(std::fs::File::open("films/w.mov")?)?;
/// let movie = Movie::open(&moov)?;
/// assert_eq!((moov.length, movie.sample(TrackId(1), 4)?.offset), (4096, 900));
/// # Ok::<(), Box<dyn std::error::Error>>(())
/// ```
#[non_exhaustive]
#[derive(Clone, PartialEq, Eq, Hash)]
pub struct Moov {
    /// The whole atom.
    pub bytes: Vec<u8>,
    /// The place of its first byte in the file.
    pub place: u64,
    /// The length of the file.
    pub length: u64,
    /// How many fragments the file has at top level. Their samples are not read.
    pub fragments: u64,
    /// How many bytes of film the file has in fragments: those in mdat atoms after the first fragment.
    pub fragment_bytes: u64,
}

impl Moov {
    /// Finds the moov of a film and reads it. The proved library says where to read, and what is wrong with the film's
    /// top level.
    ///
    /// # Errors
    ///
    /// [`ReadError::Refused`] where the film's top level is refused: [`Refusal::AtomSize`], [`Refusal::AtomCount`]
    /// where there is no moov or more than one, [`Refusal::FileTooLong`] where the file is longer than [`MAX_LENGTH`](crate::MAX_LENGTH);
    /// [`ReadError::MoovTooLong`] where the moov is longer than may be lent; [`ReadError::Io`] where it cannot be read, or there is no memory for the moov.
    pub fn read(film: impl Read + Seek) -> Result<Moov, ReadError> {
        Moov::read_seeing(film, |_, _| ())
    }

    /// The same, which tells the type and the place of each atom at top level as it is met.
    ///
    /// # Errors
    ///
    /// Those of [`Moov::read`].
    pub fn read_seeing(film: impl Read + Seek, mut see: impl FnMut(FourCC, u64)) -> Result<Moov, ReadError> {
        let mut film = Window { film, place: 0, bytes: Vec::new() };
        let length = film.film.seek(SeekFrom::End(0))?;
        let mut walk = [length, 0, 0, 0, 0, 0];
        let (mut fragments, mut fragment_bytes) = (0, 0);
        loop {
            let place = walk[1];
            let header = film.header(place, length)?;
            let kind = header.get(4..8).and_then(|kind| kind.try_into().ok()).map(FourCC::from_bytes);
            let is_fragment = ffi::is_fragment(header);
            let head = if header.starts_with(&[0, 0, 0, 1]) { 16 } else { 8 };
            walk = ffi::top_level(header, walk)?;
            if let [_, _, _, at, size, 1] = walk {
                return Ok(Moov { fragments, fragment_bytes, ..film.moov(at, size, length)? });
            }
            fragments += u64::from(is_fragment);
            if fragments > 0 && kind == Some(MDAT) {
                fragment_bytes += (walk[1] - place).saturating_sub(head);
            }
            kind.into_iter().for_each(|kind| see(kind, place));
        }
    }
}

/// Where the moov of a whole file stands, as the proved walk over its top level finds it.
pub(crate) fn moov_in(file: &[u8]) -> Result<Range<usize>, Refusal> {
    let mut walk = [file.len() as u64, 0, 0, 0, 0, 0];
    loop {
        let begin = promised::<u64, usize>(walk[1]);
        walk = ffi::top_level(&file[begin..file.len().min(begin + HEADER)], walk)?;
        if let [_, _, _, at, size, 1] = walk {
            return Ok(promised(at)..promised(at + size));
        }
    }
}

/// A film of which some bytes from a place on were read.
struct Window<R> {
    film: R,
    place: u64,
    bytes: Vec<u8>,
}

impl<R: Read + Seek> Window<R> {
    /// The bytes of an atom's header at a place: fewer only where the file ends.
    fn header(&mut self, place: u64, length: u64) -> io::Result<&[u8]> {
        let wanted = length.saturating_sub(place).min(HEADER as u64) as usize;
        let begin = place.checked_sub(self.place).and_then(|begin| usize::try_from(begin).ok());
        if begin.and_then(|begin| self.bytes.get(begin..)?.get(..wanted)).is_none() {
            self.film.seek(SeekFrom::Start(place))?;
            let most = length.saturating_sub(place).min(WINDOW as u64) as usize;
            self.bytes.resize(most, 0);
            self.place = place;
            self.film.read_exact(&mut self.bytes).map_err(shorter)?;
        }
        let begin = promised::<u64, usize>(place - self.place);
        Ok(&self.bytes[begin..begin + wanted])
    }

    /// The moov, of which no more is read than may be lent.
    fn moov(mut self, place: u64, size: u64, length: u64) -> Result<Moov, ReadError> {
        if size > MAX_FILE_BYTES {
            return Err(ReadError::MoovTooLong { place, size });
        }
        let mut bytes = room(promised(size)).map_err(io::Error::from)?;
        self.film.seek(SeekFrom::Start(place))?;
        self.film.read_exact(&mut bytes).map_err(shorter)?;
        Ok(Moov { bytes, place, length, fragments: 0, fragment_bytes: 0 })
    }
}

/// The bytes were there when the length was asked.
fn shorter(error: io::Error) -> io::Error {
    match error.kind() {
        ErrorKind::UnexpectedEof => io::Error::new(ErrorKind::UnexpectedEof, "it became shorter while it was read"),
        _ => error,
    }
}

impl fmt::Debug for Moov {
    /// The lengths; the bytes themselves would be no help.
    fn fmt(&self, f: &mut fmt::Formatter<'_>) -> fmt::Result {
        let mut shown = f.debug_struct("Moov");
        shown.field("bytes", &self.bytes.len()).field("place", &self.place).field("length", &self.length).finish()
    }
}

impl<'a> From<&'a Moov> for Film<'a> {
    fn from(moov: &'a Moov) -> Film<'a> {
        Film::Moov { moov: &moov.bytes, length: moov.length }
    }
}

/// Why no moov was read.
#[non_exhaustive]
#[derive(Debug)]
pub enum ReadError {
    /// The film's top level is refused.
    Refused(Refusal),
    /// The moov is longer than [`MAX_FILE_BYTES`](crate::MAX_FILE_BYTES), and would be refused 1 if it were lent.
    MoovTooLong {
        /// The place of its first byte in the file.
        place: u64,
        /// Its size in bytes.
        size: u64,
    },
    /// It could not be read.
    Io(io::Error),
}

impl ReadError {
    /// The refusal, if it is one.
    #[must_use]
    pub fn refusal(&self) -> Option<Refusal> {
        match self {
            ReadError::Refused(refusal) => Some(*refusal),
            ReadError::MoovTooLong { .. } => Some(Refusal::FileTooLong),
            ReadError::Io(_) => None,
        }
    }
}

impl From<Refusal> for ReadError {
    fn from(refusal: Refusal) -> ReadError {
        ReadError::Refused(refusal)
    }
}

impl From<io::Error> for ReadError {
    fn from(error: io::Error) -> ReadError {
        ReadError::Io(error)
    }
}

impl fmt::Display for ReadError {
    fn fmt(&self, f: &mut fmt::Formatter<'_>) -> fmt::Result {
        match self {
            ReadError::Refused(Refusal::FileTooLong) => f.pad("the file is longer than 2^63 - 1 bytes"),
            ReadError::Refused(refusal) => refusal.fmt(f),
            ReadError::MoovTooLong { place, size } => {
                write!(f, "the moov at byte {place} has {size} bytes, and may have {MAX_FILE_BYTES}")
            }
            ReadError::Io(error) => error.fmt(f),
        }
    }
}

impl Error for ReadError {
    fn source(&self) -> Option<&(dyn Error + 'static)> {
        match self {
            ReadError::Refused(refusal) => Some(refusal),
            ReadError::MoovTooLong { .. } => None,
            ReadError::Io(error) => Some(error),
        }
    }
}
