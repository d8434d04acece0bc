//! Films. Of a film only the headers at top level and its moov are read, whatever its length; every question is put by the moov alone. A film that is
//! refused, and is no longer than a file may be that is lent whole, is explained as a whole file is: zeros are lent for what is not read of it.
use crate::atoms;
use crate::explain::{explanation, explanation_alone};
use crate::failure::Failure;
use crate::hints;
use crate::input::{self, MOST_BYTES, STANDARD};
use crate::progress::Progress;
use crate::sha256::Sha256;
use crate::warnings::disagreements;
use crate::zeros::zeros;
use chaldoref::{
    self as lent, strict_refusal, AnySlip, ByteRange, FilmReturn, FourCC, LeaveOut, Moov, Movie, ReadError, Refusal,
    TrackId, MAX_FILE_BYTES,
};
use std::cell::OnceCell;
use std::ffi::OsStr;
use std::fs::File;
use std::io::{self, Cursor, ErrorKind, Read, Seek, SeekFrom, Write};
use std::ops::Range;
use std::os::unix::fs::FileExt;

/// A film with more atoms at top level is not explained, rather than read one header here and one there again.
const MOST_ATOMS: usize = 65_536;

/// A header with a 64-bit size.
const LONGEST_HEADER: usize = 16;

/// The atoms that films have at top level.
const TOP_LEVEL: [&[u8]; 10] =
    [b"ftyp", b"moov", b"mdat", b"wide", b"free", b"skip", b"moof", b"uuid", b"sidx", b"pnot"];

/// A longer file is not tried as a slip.
const LONGEST_SLIP: u64 = 1 << 20;

/// As many bytes are copied at once.
const COPIED: usize = 1 << 16;

/// As many bytes of a film that is written anew are copied between two looks at the clock.
const PIECE: u64 = 1 << 20;

pub struct Film {
    /// Its moov, or why its top level is refused.
    moov: Result<Moov, ReadError>,
    /// The parts that are left out of the moov.
    left_out: Vec<LeaveOut>,
    /// Those of them that are video tracks.
    left_out_videos: Vec<TrackId>,
    kept: Kept,
    /// The film as it is lent whole, once that was asked for.
    whole: OnceCell<Option<Vec<u8>>>,
}

/// What of a film is not read, since it lies in fragments. A film that only announces fragments has none of them.
#[derive(Clone, Copy, Debug, PartialEq)]
pub struct Fragments {
    pub count: u64,
    pub bytes: u64,
}

impl Fragments {
    /// What is said of the film.
    pub fn in_words(self) -> String {
        let s = if self.count == 1 { "" } else { "s" };
        match self {
            Fragments { count: 0, .. } => {
                "the film announces fragments (mvex), and none is in this file: it may be cut off; compare it with the original".into()
            }
            Fragments { count, bytes } => format!(
                "the film is fragmented: {bytes} bytes of film in {count} fragment{s} are not read; keep it, and ask the camera's maker for films without fragments"
            ),
        }
    }

    /// Why more of the film may be missing, as part of a sentence about it.
    pub fn unread_in_words(self) -> String {
        match self {
            Fragments { count: 0, .. } => "it announces fragments, and none is in this file".into(),
            Fragments { bytes, .. } => format!("{bytes} bytes of film in fragments are not read"),
        }
    }
}

/// What the film's own bytes are copied from.
enum Kept {
    File(File),
    /// Standard input, and what is no regular file.
    Bytes(Vec<u8>),
}

impl Film {
    /// Finds and reads the moov of a film.
    pub fn read(name: &OsStr) -> io::Result<Film> {
        let file = input::open(name)?;
        let told = file.metadata()?;
        // Files that the system makes up as they are read, such as those of /proc, have no length.
        if name == STANDARD || !told.is_file() || told.len() == 0 {
            return Film::of(input::all(file)?);
        }
        Ok(Film::new(moov_of(&file)?, Kept::File(file)))
    }

    /// The film of these bytes, which are all of it, or one more than are accepted.
    fn of(bytes: Vec<u8>) -> io::Result<Film> {
        let moov = if bytes.len() as u64 == MOST_BYTES {
            Err(ReadError::Refused(Refusal::FileTooLong))
        } else {
            moov_of(Cursor::new(&bytes))?
        };
        Ok(Film::new(moov, Kept::Bytes(bytes)))
    }

    fn new(moov: Result<Moov, ReadError>, kept: Kept) -> Film {
        Film { moov, left_out: Vec::new(), left_out_videos: Vec::new(), kept, whole: OnceCell::new() }
    }

    /// The film without these parts. One whose top level is refused stays as it is.
    pub fn leaving_out(mut self, parts: &[LeaveOut]) -> Result<Film, Failure> {
        for part in parts {
            if let Ok(moov) = &self.moov {
                let is_video =
                    |id: &TrackId| atoms::trak(&moov.bytes, id.0).is_some_and(|trak| trak.subtype() == *b"vide");
                if let LeaveOut::Track(id) = part {
                    self.left_out_videos.extend(Some(*id).filter(is_video));
                }
                let words = || Some(format!("--leave-out {part}: the film has no such track"));
                let copy = moov.leaving_out(&[*part]).map_err(|refusal| Failure::Refused(refusal, words()))?;
                self.moov = Ok(copy);
            }
        }
        self.left_out = parts.to_vec();
        Ok(self)
    }

    /// The video tracks that are left out.
    pub fn left_out_videos(&self) -> &[TrackId] {
        &self.left_out_videos
    }

    /// The movie, or the failure that says why there is none.
    pub fn movie(&self) -> Result<Movie<'_>, Failure> {
        self.open(|_, refusal| refusal)
    }

    /// The same for the slip writer, which reads strictly.
    pub fn filed(&self) -> Result<Movie<'_>, Failure> {
        self.open(|film, refusal| strict_refusal(film).unwrap_or(refusal))
    }

    /// Asks the film by its moov alone. Where that is refused 3, which a co64 beside an stco is by this way alone, and the whole can be lent,
    /// the whole is asked. The refusal that is told may be another for the same film.
    fn open(&self, told: impl Fn(lent::Film, Refusal) -> Refusal) -> Result<Movie<'_>, Failure> {
        let moov = self.moov.as_ref().map_err(|error| self.unread(error))?;
        let alone = Movie::open(moov);
        let (film, movie) = match (&alone, self.whole_after(&alone)) {
            (Err(_), Some(whole)) => (lent::Film::Whole(whole), Movie::open(whole)),
            _ => (moov.into(), alone),
        };
        movie.map_err(|refusal| self.refused(told(film, refusal)))
    }

    /// The whole film, where the moov alone was refused 3 and it can be lent.
    fn whole_after(&self, alone: &Result<Movie, Refusal>) -> Option<&[u8]> {
        matches!(alone, Err(Refusal::AtomCount)).then(|| self.whole()).flatten()
    }

    /// Adds the film to a return, by its moov, or whole where the moov alone is refused 3. One whose top level is refused is counted by its whole, or,
    /// where it is too long to be lent so, by bytes that are refused with the same number.
    pub fn file(&self, totals: &mut FilmReturn) -> Result<(), Refusal> {
        match &self.moov {
            Ok(moov) => {
                let before = totals.clone();
                totals.add(moov)?;
                let is_refused_3 = refused_3(totals) > refused_3(&before);
                match is_refused_3.then(|| self.whole()).flatten() {
                    Some(whole) => {
                        *totals = before;
                        totals.add(whole)
                    }
                    None => Ok(()),
                }
            }
            Err(error) => match self.whole() {
                Some(whole) => totals.add(whole),
                None => totals.add(refused_as(error.refusal().unwrap_or(Refusal::FileTooLong))),
            },
        }
    }

    /// A slip that is not written, for the film's sake where it stores another duration than its samples total.
    pub fn slip_refused(&self, movie: &Movie, failure: Failure) -> Failure {
        match failure {
            Failure::Refused(refusal @ Refusal::StoredDuration, _) => {
                let words = disagreements(movie).collect::<Vec<_>>().join("; ");
                Failure::Film(refusal, self.why(refusal), Some(words))
            }
            other => other,
        }
    }

    /// The fragments of the film, if it has any or announces some: moofs at top level, or an mvex in moov.
    pub fn fragments(&self, movie: &Movie) -> Option<Fragments> {
        let announced = || self.names_mvex() && movie.fragments().announced;
        self.present_fragments().or_else(|| announced().then_some(Fragments { count: 0, bytes: 0 }))
    }

    /// Whether those four bytes are anywhere in the moov: where they are not, nothing is announced, and the library need not judge the film again.
    pub fn names_mvex(&self) -> bool {
        self.moov.as_ref().is_ok_and(|moov| moov.bytes.windows(4).any(|kind| kind == b"mvex"))
    }

    /// The fragments at top level, if there are any.
    pub fn present_fragments(&self) -> Option<Fragments> {
        let moov = self.moov.as_ref().ok()?;
        (moov.fragments > 0).then_some(Fragments { count: moov.fragments, bytes: moov.fragment_bytes })
    }

    /// Where its moov stands in the file.
    pub fn moov_range(&self) -> Option<ByteRange> {
        let moov = self.moov.as_ref().ok()?;
        Some(ByteRange { offset: moov.place, length: moov.bytes.len() as u64 })
    }

    /// The atoms at top level, each with the bytes that it takes, as far as sizes lead.
    pub fn top_level(&self) -> Vec<(FourCC, Range<u64>)> {
        let (mut found, mut at) = (Vec::new(), 0);
        while let Some((kind, end)) = self.atom_at(at).filter(|_| found.len() < MOST_ATOMS) {
            found.push((kind, at..end));
            at = end;
        }
        found
    }

    /// The atom at a place, and where it ends.
    fn atom_at(&self, at: u64) -> Option<(FourCC, u64)> {
        let (header, length) = self.header(at)?;
        let kind = FourCC::from_bytes(header.get(4..8)?.try_into().ok()?);
        let (least, size) = atoms::said(&header, true)?;
        let end = match size {
            Some(size) => at.checked_add(size).filter(|end| size >= least as u64 && *end <= length)?,
            None => length,
        };
        Some((kind, end))
    }

    /// Writes parts of the film, one after the other, as they stand in the file. They lie within it: a film in which a
    /// chunk passes the end is refused 12.
    pub fn copy(&self, parts: &[ByteRange], out: &mut dyn Write) -> Result<(), Failure> {
        let all = parts.iter().fold(0, |sum: u64, part| sum.saturating_add(part.length));
        let mut progress = Progress::of(all);
        let copied = match &self.kept {
            Kept::File(file) => {
                let mut room = zeros(COPIED).map_err(Failure::Input)?;
                parts.iter().try_for_each(|part| copy(file, *part, &mut room, out, &mut progress))
            }
            Kept::Bytes(bytes) => parts
                .iter()
                .try_for_each(|part| Ok(out.write_all(part.of(bytes).expect("the ranges of a film lie within it"))?)),
        };
        progress.end();
        copied
    }

    /// Writes the whole film with another moov in its moov's place, which is as long. The film must not change in the meantime.
    pub fn copy_with(&self, moov: &[u8], out: &mut File) -> io::Result<()> {
        let place = self.moov.as_ref().map_or(0, |moov| moov.place);
        let end = place + moov.len() as u64;
        match &self.kept {
            Kept::File(file) => copy_around(file, place..end, moov, out),
            Kept::Bytes(bytes) => {
                let [place, end] =
                    [place, end].map(|at| usize::try_from(at).map_or(bytes.len(), |at| at.min(bytes.len())));
                [&bytes[..place], moov, &bytes[end..]].iter().try_for_each(|part| out.write_all(part))
            }
        }
    }

    /// The sha256 of parts of the film, one after the other.
    pub fn hash(&self, parts: &[ByteRange]) -> Result<String, Failure> {
        let mut hash = Sha256::new();
        self.copy(parts, &mut hash)?;
        Ok(hash.finish())
    }

    /// Refuses the film for its top level.
    fn unread(&self, error: &ReadError) -> Failure {
        match error {
            ReadError::MoovTooLong { .. } => {
                let refusal = Refusal::FileTooLong;
                Failure::Film(refusal, Some(error.to_string()), self.hint(refusal))
            }
            error => self.refused(error.refusal().unwrap_or(Refusal::FileTooLong)),
        }
    }

    /// Refuses the film. Of a film with several moovs one may be wrong inside, which is judged first: that is told of the whole.
    fn refused(&self, refusal: Refusal) -> Failure {
        let whole = if self.moov.is_err() { self.whole() } else { None };
        let refusal = whole.and_then(|film| Movie::open(film).err()).unwrap_or(refusal);
        Failure::Film(refusal, self.why(refusal), self.hint(refusal))
    }

    /// A refusal of the film, and why, if that is known.
    pub fn explained(&self, refusal: Refusal) -> Failure {
        Failure::Film(refusal, self.why(refusal), None)
    }

    /// Why the film is refused, if that is known.
    fn why(&self, refusal: Refusal) -> Option<String> {
        let whole = self.whole().and_then(|film| explanation(film, refusal));
        whole.or_else(|| explanation_alone(self.moov.as_ref().ok()?, refusal))
    }

    /// What can be done about a refusal, if that is known.
    fn hint(&self, refusal: Refusal) -> Option<String> {
        if self.is_slip() {
            return Some("this is a slip, not a film; the film stands first".into());
        }
        match (&self.moov, refusal) {
            (_, Refusal::FileTooLong) => Some(TOO_LONG.into()),
            (_, Refusal::AtomSize) => self.missing().map(|(bytes, has_moov)| hints::cut_off(bytes, has_moov)),
            (Err(_), Refusal::AtomCount) => Some(hints::without_moov()),
            (Ok(moov), refusal) => hints::of_moov(moov, refusal),
            _ => None,
        }
    }

    /// Whether the file is a slip, which someone named in the film's place.
    fn is_slip(&self) -> bool {
        let bytes = match &self.kept {
            Kept::File(file) => {
                let length = file.metadata().map_or(u64::MAX, |file| file.len());
                let mut bytes = vec![0; usize::try_from(length.min(LONGEST_SLIP)).unwrap_or(0)];
                if length > LONGEST_SLIP || fill(file, 0, &mut bytes).is_none() {
                    return false;
                }
                bytes
            }
            Kept::Bytes(bytes) if bytes.len() as u64 <= LONGEST_SLIP => bytes.clone(),
            Kept::Bytes(_) => return false,
        };
        input::slip(bytes).is_ok_and(|bytes| AnySlip::read(&bytes).is_ok())
    }

    /// How many bytes the last atom at top level is longer than the file, if it is, and whether a moov stands before it.
    fn missing(&self) -> Option<(u64, bool)> {
        let (mut at, mut has_moov) = (0, false);
        for _ in 0..MOST_ATOMS {
            let (header, length) = self.header(at)?;
            let (least, size) = atoms::said(&header, true)?;
            let end = at.checked_add(size.filter(|size| *size >= least as u64)?)?;
            let kind = header.get(4..8)?;
            if end > length {
                // Of bytes that are no film a size means nothing.
                return TOP_LEVEL.contains(&kind).then_some((end - length, has_moov));
            }
            has_moov |= kind == b"moov";
            at = end;
        }
        None
    }

    /// The first bytes from a place on, as many as a header has, and the length of the file.
    fn header(&self, at: u64) -> Option<(Vec<u8>, u64)> {
        let length = match &self.kept {
            Kept::File(file) => file.metadata().ok()?.len(),
            Kept::Bytes(bytes) => bytes.len() as u64,
        };
        let range = ByteRange { offset: at, length: length.checked_sub(at)?.min(LONGEST_HEADER as u64) };
        let mut header = vec![0; usize::try_from(range.length).ok()?];
        match &self.kept {
            Kept::File(file) => file.read_exact_at(&mut header, at).ok()?,
            Kept::Bytes(bytes) => header.copy_from_slice(range.of(bytes)?),
        }
        Some((header, length))
    }

    /// The film as it is lent whole, without what is left out; nothing where it is too long, or cannot be read.
    fn whole(&self) -> Option<&[u8]> {
        match &self.kept {
            Kept::Bytes(bytes) if self.left_out.is_empty() => Some(bytes),
            kept => self.whole.get_or_init(|| self.whole_of(kept)).as_deref(),
        }
    }

    fn whole_of(&self, kept: &Kept) -> Option<Vec<u8>> {
        let mut bytes = match kept {
            Kept::File(file) => tables(file)?,
            Kept::Bytes(bytes) => bytes.clone(),
        };
        if let Ok(moov) = &self.moov {
            let place = usize::try_from(moov.place).ok()?;
            bytes.get_mut(place..)?.get_mut(..moov.bytes.len())?.copy_from_slice(&moov.bytes);
        }
        Some(bytes)
    }
}

/// The hint for the refusal whose words are those of a file that is lent whole.
const TOO_LONG: &str =
    "a film in a file may have any length; its moov, and a film from standard input, may have 2,147,483,647 bytes";

/// How many films of a return are refused 3.
fn refused_3(totals: &FilmReturn) -> u64 {
    totals.refused().filter(|(refusal, _)| *refusal == Refusal::AtomCount).map(|(_, films)| films).sum()
}

/// Bytes that are refused with that number, one of those that a film's top level can be refused with.
fn refused_as(refusal: Refusal) -> lent::Film<'static> {
    match refusal {
        Refusal::AtomSize => lent::Film::Whole(&[0]),
        Refusal::AtomCount => lent::Film::Whole(&[]),
        _ => lent::Film::Moov { moov: &[], length: u64::MAX },
    }
}

/// The moov of a film, or why its top level is refused.
fn moov_of(film: impl Read + Seek) -> io::Result<Result<Moov, ReadError>> {
    match Moov::read(film) {
        Err(ReadError::Io(error)) => Err(error),
        read => Ok(read),
    }
}

/// As many bytes as the file has, of which the headers at top level and every moov are read, as far as sizes lead; nothing where it is too long to be
/// lent whole, or cannot be read.
fn tables(file: &File) -> Option<Vec<u8>> {
    let length = file.metadata().ok()?.len();
    if length > MAX_FILE_BYTES {
        return None;
    }
    let mut bytes = zeros(usize::try_from(length).ok()?).ok()?;
    let mut at = 0;
    for _ in 0..MOST_ATOMS {
        match read_atom(file, &mut bytes, at)? {
            Some(size) => at += size,
            None => return Some(bytes),
        }
    }
    None
}

/// Reads the header of the atom at a place, or the whole atom if it is a moov. Its size is answered, or that no atom begins there: then all that remains is
/// read, which is little or of no film.
fn read_atom(file: &File, bytes: &mut [u8], at: usize) -> Option<Option<usize>> {
    let rest = &mut bytes[at..];
    let header = rest.len().min(LONGEST_HEADER);
    fill(file, at, &mut rest[..header])?;
    let Some((_, size)) = atoms::extent(rest, true) else {
        return Some(None);
    };
    if rest[4..8] == *b"moov" {
        fill(file, at, &mut rest[..size])?;
    }
    Some(Some(size))
}

/// Fills the room with the file's bytes from a place on.
fn fill(file: &File, at: usize, room: &mut [u8]) -> Option<()> {
    file.read_exact_at(room, u64::try_from(at).ok()?).ok()
}

fn copy(
    file: &File,
    part: ByteRange,
    room: &mut [u8],
    out: &mut dyn Write,
    progress: &mut Progress,
) -> Result<(), Failure> {
    let (mut at, mut left) = (part.offset, part.length);
    while left > 0 {
        let some = usize::try_from(left).map_or(room.len(), |left| left.min(room.len()));
        let some = &mut room[..some];
        file.read_exact_at(some, at).map_err(|error| Failure::Input(not_copied(error)))?;
        out.write_all(some)?;
        let count = some.len() as u64;
        at += count;
        left -= count;
        progress.add(count);
    }
    Ok(())
}

/// Writes a file with other bytes in one place.
fn copy_around(file: &File, place: Range<u64>, instead: &[u8], out: &mut File) -> io::Result<()> {
    let told = file.metadata()?;
    let mut progress = Progress::of(told.len());
    let copied = copy_file(file, 0..place.start, out, &mut progress)
        .and_then(|()| out.write_all(instead))
        .and_then(|()| copy_file(file, place.end..told.len(), out, &mut progress));
    progress.end();
    copied?;
    let after = file.metadata()?;
    if (after.len(), after.modified()?) == (told.len(), told.modified()?) {
        return Ok(());
    }
    Err(io::Error::other("the film changed while it was read"))
}

/// Writes a part of a file to another, piece by piece, within the system where it can do that.
fn copy_file(mut file: &File, part: Range<u64>, out: &mut File, progress: &mut Progress) -> io::Result<()> {
    file.seek(SeekFrom::Start(part.start))?;
    let mut left = part.end.saturating_sub(part.start);
    while left > 0 {
        let count = io::copy(&mut file.take(left.min(PIECE)), out)?;
        if count == 0 {
            return Err(not_copied(ErrorKind::UnexpectedEof.into()));
        }
        left -= count;
        progress.add(count);
    }
    Ok(())
}

/// The bytes were there when the moov was read.
fn not_copied(error: io::Error) -> io::Error {
    match error.kind() {
        ErrorKind::UnexpectedEof => io::Error::new(ErrorKind::UnexpectedEof, "it became shorter while it was read"),
        _ => error,
    }
}

#[cfg(test)]
mod tests {
    use super::*;
    use crate::atoms::extent;
    use chaldoref::{Feature, MediaTime, MovieTime, Track};
    use reference::film::{self, atom, file, w, w_movie, Node, Size};
    use reference::made::moov_last;
    use reference::maker::{self, Random};
    use std::fs;
    use std::path::PathBuf;

    /// A file that a test keeps for a while.
    struct Stored(PathBuf);

    impl Stored {
        fn new(name: &str, bytes: &[u8]) -> Stored {
            let path = std::env::temp_dir().join(format!("chaldoref-{}-{name}.mov", std::process::id()));
            fs::write(&path, bytes).unwrap();
            Stored(path)
        }

        fn film(&self) -> Film {
            Film::read(self.0.as_os_str()).unwrap()
        }
    }

    impl Drop for Stored {
        fn drop(&mut self) {
            let _ = fs::remove_file(&self.0);
        }
    }

    /// What the program asks about a track.
    fn said_of(movie: &Movie, track: &Track) -> String {
        let id = track.id;
        let whole = MediaTime(0)..track.total;
        let samples: Vec<_> =
            (0..=track.samples.min(9) + 1).map(|n| (movie.sample(id, n), movie.sample_range(id, n))).collect();
        let times = [0, 1, track.total.0 / 2, track.total.0];
        let at = times.map(|t| (movie.sample_at(id, MediaTime(t)), movie.media_time(id, MovieTime(t))));
        let ctts = movie.opened(id).map(|track| track.has_ctts());
        let stretch = (movie.stretch(id, whole.clone()), movie.write_slip(id, whole), ctts);
        let features: Vec<_> = Feature::ALL.iter().map(|of| (movie.feature(id, *of), movie.peak(id, *of))).collect();
        format!("{track:?} {samples:?} {at:?} {stretch:?} {features:?} {:?}", movie.profile(id))
    }

    fn answers(movie: &Movie) -> String {
        let tracks: Vec<_> = movie.tracks().iter().map(|track| said_of(movie, track)).collect();
        format!("{tracks:?} {:?} {:?}", movie.movie_profile(), movie.header())
    }

    fn failed(failure: Failure) -> String {
        failure.message("x")
    }

    /// What the program says of a film.
    fn said(film: &Film) -> [String; 2] {
        let movie = film.movie().map_or_else(failed, |movie| answers(&movie));
        let filed = film.filed().map_or_else(failed, |movie| answers(&movie));
        [movie, filed]
    }

    /// The same where all of it is lent.
    fn said_of_whole(film: &[u8]) -> [String; 2] {
        let lent = || Film::of(film.to_vec()).unwrap();
        let refused = |refusal| failed(Failure::Film(refusal, explanation(film, refusal), lent().hint(refusal)));
        let movie = || Movie::open(film);
        let strictly = |refusal| refused(strict_refusal(film).unwrap_or(refusal));
        [movie().map_or_else(refused, |movie| answers(&movie)), movie().map_or_else(strictly, |movie| answers(&movie))]
    }

    /// Where the atoms at top level begin and end, as far as sizes lead.
    fn top_level(film: &[u8]) -> Vec<(usize, usize)> {
        let mut found = Vec::new();
        let mut at = 0;
        while let Some((_, size)) = extent(&film[at..], true) {
            found.push((at, at + size));
            at += size;
        }
        found
    }

    /// Writes another size into the header of an atom, in the 64-bit form too.
    fn resize(random: &mut Random, film: &mut Vec<u8>, (begin, end): (usize, usize)) {
        let size = end - begin;
        let near = [0, 0, 2, 7, 8, 15, 16, size - 1, size, size + 1, size + 7, size + 8, size + 9, 0xffff_ffff];
        let says = random.one(&near);
        if random.once_in(2) {
            film[begin..begin + 4].copy_from_slice(&u32::try_from(says).unwrap().to_be_bytes());
            return;
        }
        let wide = random.one(&[says as u64, says as u64, says as u64 | 1 << 63]);
        film[begin..begin + 4].copy_from_slice(&[0, 0, 0, 1]);
        film.splice(begin + 8..begin + 8, wide.to_be_bytes());
    }

    /// Damages the top level of a film: sizes, types, atoms twice or in another order, bytes after the last, the end cut off.
    fn damage(random: &mut Random, film: &mut Vec<u8>) {
        let mut atoms = top_level(film);
        if atoms.is_empty() {
            return;
        }
        let (begin, end) = random.one(&atoms);
        match random.below(7) {
            0..=1 => resize(random, film, (begin, end)),
            2 => film[begin + 4..begin + 8].copy_from_slice(random.one(&[b"moov", b"moof", b"mdat", b"free"])),
            3 => film.extend_from_within(begin..end),
            4 => {
                random.shuffle(&mut atoms);
                *film = atoms.iter().flat_map(|(begin, end)| film[*begin..*end].to_vec()).collect();
            }
            5 => {
                let more = 1 + random.below(20);
                film.extend(if random.once_in(2) { vec![0; more] } else { random.bytes(more) });
            }
            _ => film.truncate(random.below(film.len() + 1)),
        }
    }

    /// A film of any kind, with faults in its tables or none, and with damage at top level or none.
    fn any_film(n: u64) -> Vec<u8> {
        let mut random = Random::of(4, n);
        let mut film = if random.once_in(3) { maker::valid(&mut random) } else { maker::film(&mut random) };
        for _ in 0..random.one(&[0, 1, 1, 2]) {
            damage(&mut random, &mut film);
        }
        film
    }

    /// A co64 is an atom that is skipped in a whole file, and a table where the moov is lent alone.
    fn has_co64(film: &[u8]) -> bool {
        film.windows(4).any(|kind| kind == b"co64")
    }

    /// Of films from a seed the moov alone gives the answers, refusals and explanations of the whole.
    #[test]
    fn the_moov_alone_gives_the_same_answers() {
        let mut refused = [0; 20];
        for n in 0..2500 {
            let whole = any_film(n);
            if has_co64(&whole) {
                continue;
            }
            let film = Stored::new("seed", &whole).film();
            assert_eq!(said(&film), said_of_whole(&whole), "film {n}");
            refused[Movie::open(&whole).err().map_or(0, |refusal| refusal.number()) as usize] += 1;
        }
        assert!(refused[0] > 400 && refused[2] > 500 && refused[3] > 150, "{refused:?}");
        assert!([4, 5, 6, 7, 8, 9, 10, 12, 13, 19].iter().all(|n| refused[*n] > 0), "{refused:?}");
    }

    fn with_size(size: Size, node: Node) -> Node {
        Node { size, ..node }
    }

    /// Of the film of these atoms the headers and every moov are lent, where it is lent whole: of those of these numbers, counted from 0, nothing past the
    /// header.
    #[track_caller]
    fn leaves_out(atoms: &[Node], unread: &[usize]) {
        let mut bytes = file(atoms.to_vec()).bytes();
        let film = Stored::new("left-out", &bytes).film();
        let places = top_level(&bytes);
        for (begin, end) in unread.iter().map(|n| places[*n]) {
            bytes[begin + LONGEST_HEADER..end].fill(0);
        }
        assert!(film.whole().unwrap() == &bytes[..]);
    }

    #[test]
    fn the_headers_and_every_moov_are_read() {
        let (mdat, moov, free) = (atom("mdat", &[7; 40]), w_movie().moov(), atom("free", b""));
        let [wide_mdat, wide_moov] = [&mdat, &moov].map(|node| with_size(Size::Wide, node.clone()));
        let [mdat_to_end, moov_to_end] = [&mdat, &moov].map(|node| with_size(Size::Says(0), node.clone()));
        leaves_out(&[mdat.clone(), moov.clone()], &[0]);
        leaves_out(&[wide_mdat, wide_moov.clone()], &[0]);
        leaves_out(&[moov.clone(), free.clone(), mdat_to_end], &[2]);
        leaves_out(&[mdat.clone(), moov_to_end], &[0]);
        leaves_out(&[moov.clone(), mdat.clone(), wide_moov], &[1]);
        leaves_out(&[mdat.clone(), free, mdat], &[0, 2]);
        // Elsewhere than at top level, or in other letters, it is none.
        let inside = atom("free", &moov.bytes());
        leaves_out(&[inside.clone(), moov, Node { kind: *b"Moov", ..inside }], &[0, 2]);
    }

    #[test]
    fn many_atoms_at_top_level() {
        let mut bytes = w().bytes();
        bytes.extend(atom("free", &[]).bytes().repeat(MOST_ATOMS + 1));
        let film = Stored::new("many-atoms", &bytes).film();
        assert!(film.movie().is_ok() && film.whole().is_none());
        bytes.extend(w_movie().moov().bytes());
        let film = Stored::new("two-moovs", &bytes).film();
        assert!(matches!(film.movie(), Err(Failure::Film(Refusal::AtomCount, None, _))));
    }

    #[test]
    fn fragments_are_seen_at_top_level() {
        let fragments = |atoms: &[Node]| {
            let film = Stored::new("fragments", &file(atoms.to_vec()).bytes()).film();
            let found = film.fragments(&film.movie().ok().unwrap());
            found.map(|fragments| (fragments.count, fragments.bytes))
        };
        let (moov, moof, mdat) =
            (film::Movie { tracks: vec![], ..w_movie() }.moov(), atom("moof", &[0; 8]), atom("mdat", &[7; 5]));
        assert_eq!(fragments(&[mdat.clone(), moov.clone()]), None);
        assert_eq!(fragments(&[mdat.clone(), moof.clone(), moov.clone(), mdat.clone()]), Some((1, 5)));
        assert_eq!(fragments(&[moov.clone(), moof.clone(), mdat.clone(), moof, mdat]), Some((2, 10)));
        let mut with_mvex = moov;
        with_mvex.children.push(atom("mvex", &[]));
        assert_eq!(fragments(&[with_mvex]), Some((0, 0)));
    }

    /// Linux tells no length of its own files.
    #[test]
    fn a_file_without_a_length_is_read_whole() {
        let film = Film::read(OsStr::new("/proc/version")).unwrap();
        assert!(matches!(&film.kept, Kept::Bytes(bytes) if *bytes == fs::read("/proc/version").unwrap()));
        assert!(film.movie().is_err());
    }

    fn copied(film: &Film, parts: &[(u64, u64)]) -> Result<Vec<u8>, String> {
        let parts: Vec<_> =
            parts.iter().map(|(offset, length)| ByteRange { offset: *offset, length: *length }).collect();
        let mut out = Vec::new();
        film.copy(&parts, &mut out).map(|()| out).map_err(|failure| failure.message("x"))
    }

    #[test]
    fn parts_are_copied_from_the_file() {
        let long = 2 * COPIED as u64 + 100;
        let bytes = w_movie().file_of(long as usize + 1000).bytes();
        let stored = Stored::new("copied", &bytes);
        let (from_file, from_bytes) = (stored.film(), Film::of(bytes.clone()).unwrap());
        for parts in [&[][..], &[(0, 0)], &[(900, long)], &[(1000, 150), (900, 70), (long + 1000, 0)], &[(0, 600)]] {
            let expected: Vec<u8> =
                parts.iter().flat_map(|(at, length)| bytes[*at as usize..][..*length as usize].to_vec()).collect();
            assert_eq!(copied(&from_file, parts), Ok(expected.clone()));
            assert_eq!(copied(&from_bytes, parts), Ok(expected));
        }
        // The file is the one that was opened, whatever has its name now.
        fs::remove_file(&stored.0).unwrap();
        assert_eq!(copied(&from_file, &[(1000, 150)]).unwrap(), bytes[1000..1150]);
    }

    #[test]
    fn a_film_that_becomes_shorter_while_it_is_read() {
        let stored = Stored::new("shorter", &moov_last().bytes());
        let film = stored.film();
        File::options().write(true).open(&stored.0).unwrap().set_len(100).unwrap();
        assert!(copied(&film, &[(8, 92)]).is_ok());
        assert_eq!(copied(&film, &[(8, 93)]), Err("chaldoref: x: it became shorter while it was read\n".into()));
    }

    /// The most memory that this process has had, in kilobytes.
    fn most_memory() -> u64 {
        let status = fs::read_to_string("/proc/self/status").unwrap();
        let line = status.lines().find_map(|line| line.strip_prefix("VmHWM:")).unwrap();
        line.split_whitespace().next().unwrap().parse().unwrap()
    }

    /// A film of that length with the moov at its end. All before it is a hole, in which W's samples are.
    fn long_film(name: &str, length: u64) -> Stored {
        let moov = w_movie().moov().bytes();
        let place = length - moov.len() as u64;
        let stored = Stored::new(name, &with_size(Size::WideSays(place), atom("mdat", &[])).bytes());
        let file = File::options().write(true).open(&stored.0).unwrap();
        file.write_all_at(&moov, place).unwrap();
        stored
    }

    #[test]
    fn long_films_take_little_memory() {
        let before = most_memory();
        for (name, length) in [("long", 1_900_000_000), ("longest", 2_147_483_648), ("100-gb", 100_000_000_000)] {
            let film = long_film(name, length).film();
            assert_eq!(said(&film), said_of_whole(&w().bytes()), "{name}");
            let moov = w_movie().moov().bytes();
            assert_eq!(copied(&film, &[(length - moov.len() as u64, moov.len() as u64)]).unwrap(), moov);
        }
        // Other tests run beside this one.
        assert!(most_memory() < before + 300_000, "{} kB", most_memory());
    }

    /// It says that it is the moov, since a film in a file may have any length.
    #[test]
    fn a_moov_that_is_too_long() {
        let place = 100;
        let stored = Stored::new("long-moov", &with_size(Size::Says(place), atom("mdat", &[])).bytes());
        let file = File::options().write(true).open(&stored.0).unwrap();
        file.write_all_at(&with_size(Size::WideSays(1 << 31), atom("moov", &[])).bytes(), place.into()).unwrap();
        file.set_len(u64::from(place) + (1 << 31)).unwrap();
        let message = failed(stored.film().movie().unwrap_err());
        assert!(message.starts_with("chaldoref: x: refused 1: "), "{message}");
        let why = "chaldoref: not proved: the moov at byte 100 has 2147483648 bytes, and may have 2147483647\n";
        assert!(message.contains(why) && message.contains("may have any length"), "{message}");
        assert_eq!(failed(stored.film().filed().unwrap_err()), message);
    }

    #[test]
    fn a_long_film_that_is_refused_is_explained_by_its_moov() {
        let stored = long_film("refused", 3_000_000_000);
        let moov = w_movie().moov().bytes();
        let place = 3_000_000_000 - moov.len() as u64;
        // The number of entries of stts, which is the first of its tables.
        let stts = moov.windows(4).position(|kind| kind == b"stts").unwrap();
        File::options().write(true).open(&stored.0).unwrap().write_all_at(&[1], place + stts as u64 + 4).unwrap();
        let Err(Failure::Film(Refusal::LeafVersion, Some(why), _)) = stored.film().movie() else {
            panic!("not refused 4 with an explanation");
        };
        let end = format!("(places are counted from the moov, which is at byte {place})");
        assert!(why.contains("stts at byte") && why.ends_with(&end), "{why}");
    }
}
