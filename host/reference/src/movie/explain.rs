//! Why a file is refused, in words for people: the track, the atom, its place in the file and the numbers that disagree. The clauses are those of the
//! refusals, in their order.
use super::atoms::{visit, TOP};
use super::fault::Refused;
use super::lent::Film;
use super::refusals::{read_movie, read_tables, Reading};

/// The reference writes all out, and takes some 64 bytes for each atom and each sample, which a file can state in far fewer. No film of a few days
/// comes near these; what passes them is not explained, so that words cost no more memory than a program has.
const MOST_ATOMS: usize = 1 << 22;
const MOST_SAMPLES: usize = 1 << 22;
const MOST_MOOV_BYTES: usize = 1 << 28;

/// What a movie has at top level. A file that has none of it is something else.
const AT_TOP_LEVEL: [&[u8; 4]; 8] = [b"moov", b"mdat", b"ftyp", b"free", b"skip", b"wide", b"pnot", b"moof"];

/// What is seen of a file before it is read.
#[derive(Default)]
struct Survey {
    atoms: usize,
    moov_bytes: usize,
    is_movie: bool,
}

fn survey(lent: &[u8]) -> Survey {
    let mut seen = Survey::default();
    visit(TOP, 0, lent, &mut |parent, place, size| {
        seen.atoms += 1;
        seen.is_movie |= parent == TOP && AT_TOP_LEVEL.contains(&&place.kind);
        if parent == TOP && place.kind == *b"moov" {
            seen.moov_bytes += size;
        }
    });
    seen
}

/// Says of a file that has nothing of a movie that it is none.
fn of_no_movie(file: &[u8], (number, words): Refused) -> Refused {
    let why = match number {
        _ if file.is_empty() => ": the file is empty".to_string(),
        2 => format!("; read as one, {words}"),
        _ => format!(": {words}"),
    };
    (number, format!("this is no QuickTime movie{why}"))
}

/// The number with which a film is refused by default, and why; nothing where it is accepted, or has too much to be written out. Of a moov that is
/// lent alone places are counted from its first byte.
pub fn explain(film: &(impl Film + ?Sized)) -> Option<Refused> {
    explain_as(film, Reading::Default)
}

/// The same where strict reading is asked for, as the slip writer does.
pub fn explain_strictly(film: &(impl Film + ?Sized)) -> Option<Refused> {
    explain_as(film, Reading::Strict)
}

fn explain_as(film: &(impl Film + ?Sized), reading: Reading) -> Option<Refused> {
    let film = film.lent();
    let seen = survey(film.bytes);
    if seen.atoms > MOST_ATOMS || seen.moov_bytes > MOST_MOOV_BYTES {
        return None;
    }
    let (found, tables) = match read_tables(film) {
        Ok(read) => read,
        Err(refused @ (2..=3, _)) if !seen.is_movie => return Some(of_no_movie(film.bytes, refused)),
        Err(refused) => return Some(refused),
    };
    if tables.tracks.iter().map(|track| track.sizes.len()).sum::<usize>() > MOST_SAMPLES {
        return None;
    }
    read_movie(&found, tables, film.length, reading).err()
}
