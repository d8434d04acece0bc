//! "Refusals of a file": a function for each number, and their order. Where a clause applies it says why, in words.
mod alone;
mod contradictions;
mod counts;
mod edits;
mod references;
mod sizes;

use super::atoms::{leaves, tree, Atom, Leaf, MovieLeaves, TrackLeaves};
use super::fault::{in_tracks, many, Fault, Refused};
use super::lent::{Film, Lent, Way};
use super::tables::{movie_tables, written_out, Movie, MovieTables, Track};
pub use alone::{not_one_moov, refused_1_alone};
pub use contradictions::refused_9;
pub use counts::refused_3;
pub use edits::{in_media_scale, refused_13};
pub use references::refused_19;
pub use sizes::refused_5;

/// "the file is longer than 2,147,483,647 bytes"
pub fn refused_1(length: usize) -> Option<String> {
    // Whoever stopped reading after one byte too many has not seen the end.
    (length > 2_147_483_647).then(|| format!("the file has at least {length} bytes, and may have 2147483647"))
}

/// "a read leaf has a body whose first byte is not 0": an empty body has no first byte
pub fn refused_4(movie: &MovieLeaves) -> Option<Fault> {
    let other_version = |leaf: &Leaf| {
        let version = *leaf.body.first()?;
        let words = || format!("has version {version}, and must have 0");
        (version != 0).then(|| Fault::of(&leaf.place.kind, words()))
    };
    other_version(&movie.mvhd)
        .or_else(|| in_tracks(&movie.tracks, |track| track.read().into_iter().find_map(other_version)))
}

/// The number that the leaf states at a place is above the most that there may be.
fn over(leaf: &Leaf, at: usize, things: &str, most: u64) -> Option<Fault> {
    let n = leaf.number(at);
    (n > most).then(|| Fault::of(&leaf.place.kind, format!("states {n} {things}, and {most} are the most")))
}

/// "in one profile over 64 records": a profile of another version is none
fn over_records(prfl: &Option<Leaf>) -> Option<Fault> {
    prfl.as_ref().filter(|prfl| prfl.body[0] == 0).and_then(|prfl| over(prfl, 12, "records", 64))
}

fn track_over(track: &TrackLeaves) -> Option<Fault> {
    over(&track.stsz, 16, "samples", 1_048_576)
        .or_else(|| over(&track.chunk_offsets, 12, "chunks", 1_048_576))
        .or_else(|| over(track.elst.as_ref()?, 12, "edits", 256))
        .or_else(|| over(&track.stsd, 12, "descriptions", 64))
        .or_else(|| over(&track.dref, 12, "data references", 64))
        .or_else(|| over_records(&track.prfl))
}

/// "over 16 tracks, or in one track over 1,048,576 samples or chunks, 256 edits or 64 descriptions; in one profile over 64 records"; document 02:
/// "6 over 64 references"
pub fn refused_6(movie: &MovieLeaves) -> Option<Fault> {
    let tracks = movie.tracks.len();
    if tracks > 16 {
        return Some(Fault::of(b"moov", format!("has {tracks} tracks, and 16 are the most")));
    }
    over_records(&movie.prfl).or_else(|| in_tracks(&movie.tracks, track_over))
}

/// "a track ID is 0 or occurs twice"
pub fn refused_7(movie: &MovieTables) -> Option<Fault> {
    let ids: Vec<u64> = movie.tracks.iter().map(|track| track.id).collect();
    for (i, id) in ids.iter().enumerate() {
        let words = match ids[..i].iter().position(|before| before == id) {
            _ if *id == 0 => "the track ID is 0, and must not be".to_string(),
            Some(before) => format!("the track ID is {id}, as that of track {} is", before + 1),
            None => continue,
        };
        return Some(Fault { track: Some(i), ..Fault::of(b"tkhd", words) });
    }
    None
}

/// "a movie or media time scale is 0"
pub fn refused_8(movie: &MovieTables) -> Option<Fault> {
    let zero = |atom, scale| (scale == 0).then(|| Fault::of(atom, "the time scale is 0, and must not be".to_string()));
    zero(b"mvhd", movie.scale).or_else(|| in_tracks(&movie.tracks, |track| zero(b"mdhd", track.scale)))
}

/// "the sample durations, or a track's edit durations, total over 4,294,967,295"
pub fn refused_10(movie: &Movie) -> Option<Fault> {
    let over = |atom, things: &str, total: u64| {
        let words = || format!("the durations of its {things} total {total}, and 4294967295 is the most");
        (total > 4_294_967_295).then(|| Fault::of(atom, words()))
    };
    in_tracks(&movie.tracks, |track| {
        let edits = track.tables.edits.iter().flatten().map(|edit| edit.duration).sum::<u64>();
        over(b"stts", "samples", track.total).or_else(|| over(b"elst", "edits", edits))
    })
}

/// "the mdhd duration is not the total of the sample durations"
pub fn refused_11(movie: &Movie) -> Option<Fault> {
    in_tracks(&movie.tracks, |track| {
        let (stored, total) = (track.tables.mdhd_duration, track.total);
        (stored != total)
            .then(|| Fault::of(b"mdhd", format!("has duration {stored}, the samples of stts total {total}")))
    })
}

fn chunk_past_end(track: &Track, length: u64) -> Option<Fault> {
    let mut bytes: Vec<u64> = vec![0; track.chunks.len()];
    for sample in &track.samples {
        bytes[usize::try_from(sample.chunk - 1).unwrap()] += sample.size;
    }
    // An offset of co64 plus the sizes need not fit 64 bits.
    let end = |i: usize| u128::from(track.chunks[i].offset) + u128::from(bytes[i]);
    let i = (0..bytes.len()).find(|i| end(*i) > u128::from(length))?;
    let (offset, has, end) = (track.chunks[i].offset, many(bytes[i], "byte", "bytes"), end(i));
    let words = format!("chunk {} begins at {offset}, has {has} and ends at {end}, the file at {length}", i + 1);
    Some(Fault::of(&track.tables.offset_table, words))
}

/// "a chunk's offset plus the sizes of its samples passes the file's end"
pub fn refused_12(movie: &Movie, length: u64) -> Option<Fault> {
    in_tracks(&movie.tracks, |track| chunk_past_end(track, length))
}

/// Refuses with the number where there are words why.
fn refuse(number: u32, why: Option<String>) -> Result<(), Refused> {
    why.map_or(Ok(()), |words| Err((number, words)))
}

/// The atoms of a film that is not refused 1 or 2.
fn read_tree(film: Lent) -> Result<Vec<Atom>, Refused> {
    // "an atom's size is wrong, passes its parent's end, or 1 to 7 bytes (under 16 for a 64-bit size) remain"
    let tree = || tree(film.bytes).map_err(|words| (2, words));
    match film.way {
        Way::WholeFile => {
            refuse(1, refused_1(film.bytes.len()))?;
            tree()
        }
        Way::MoovAlone => {
            refuse(1, refused_1_alone(film.bytes.len(), film.length))?;
            let tree = tree()?;
            refuse(2, not_one_moov(&tree))?;
            Ok(tree)
        }
    }
}

/// The leaves and the tables of a film that is not refused 1 to 9. "The answer is the lowest number that applies; each condition is judged on files that
/// pass all lower ones."
pub fn read_tables(film: Lent) -> Result<(MovieLeaves, MovieTables), Refused> {
    let tree = read_tree(film)?;
    refuse(3, refused_3(&tree, film.way))?;
    let found = leaves(&tree).unwrap();
    let refuse = |number, fault: Option<Fault>| refuse(number, fault.map(|fault| fault.said(&found)));
    refuse(4, refused_4(&found))?;
    refuse(5, refused_5(&found))?;
    refuse(6, refused_6(&found))?;
    let tables = movie_tables(&found);
    refuse(7, refused_7(&tables))?;
    refuse(8, refused_8(&tables))?;
    refuse(9, refused_9(&tables))?;
    Ok((found, tables))
}

/// How a file is read. "The default becomes to accept"; "11 only where strict reading is asked for, in its old place".
#[derive(Clone, Copy, Debug, PartialEq)]
pub enum Reading {
    Default,
    Strict,
}

/// The movie of these tables, written out, if it is not refused 10 to 13 or 19.
pub fn read_movie(found: &MovieLeaves, tables: MovieTables, length: u64, reading: Reading) -> Result<Movie, Refused> {
    let movie = written_out(tables);
    let refuse = |number, fault: Option<Fault>| refuse(number, fault.map(|fault| fault.said(found)));
    refuse(10, refused_10(&movie))?;
    if reading == Reading::Strict {
        refuse(11, refused_11(&movie))?;
    }
    // "19, data elsewhere or no such entry, judged after 11 and before 12"
    refuse(19, refused_19(&movie))?;
    refuse(12, refused_12(&movie, length))?;
    refuse(13, refused_13(&movie))?;
    Ok(movie)
}

fn read_as(film: Lent, reading: Reading) -> Result<Movie, u32> {
    let movie = read_tables(film).and_then(|(found, tables)| read_movie(&found, tables, film.length, reading));
    movie.map_err(|(number, _)| number)
}

/// A film that is not refused by default, or the number.
pub fn read(film: &(impl Film + ?Sized)) -> Result<Movie, u32> {
    read_as(film.lent(), Reading::Default)
}

/// A film that is not refused where strict reading is asked for, or the number.
pub fn read_strictly(film: &(impl Film + ?Sized)) -> Result<Movie, u32> {
    read_as(film.lent(), Reading::Strict)
}

/// The number with which a film is refused by default, 0 for none.
pub fn refusal(film: &(impl Film + ?Sized)) -> u32 {
    read(film).err().unwrap_or(0)
}

/// The number with which a film is refused where strict reading is asked for, 0 for none.
pub fn strict_refusal(film: &(impl Film + ?Sized)) -> u32 {
    read_strictly(film).err().unwrap_or(0)
}
