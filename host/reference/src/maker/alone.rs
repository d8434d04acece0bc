//! Films whose moov is lent alone with the length of their file: moovs of whole films, and moovs of films that are far too long to be made, with
//! offsets in stco and in co64.
use super::dressing::{dress, skipped};
use super::faults::tables::spoil;
use super::layout::offset;
use super::movies::{movie_of, track_count};
use super::places::{any, at, containers};
use super::random::Random;
use super::tables::chunk_bytes;
use super::{faults, spoiled_bytes, Faults};
use crate::film::*;
use crate::movie::atoms::{visit, TOP};
use crate::movie::MoovAlone;

/// The moov of a whole film, if it has just one.
pub fn moov_of(film: &[u8]) -> Option<MoovAlone<&[u8]>> {
    let mut moovs = Vec::new();
    visit(TOP, 0, film, &mut |parent, place, size| {
        if parent == TOP && place.kind == *b"moov" {
            moovs.push(&film[place.at..place.at + size]);
        }
    });
    let [moov] = moovs[..] else {
        return None;
    };
    Some(MoovAlone { moov, length: u64::try_from(film.len()).unwrap() })
}

fn long(n: usize) -> u64 {
    u64::try_from(n).unwrap()
}

/// Samples so long that a chunk has more bytes than 32 bits count.
fn lengthen(random: &mut Random, track: &mut Track) {
    let size = random.one(&[1 << 20, (1 << 31) - 1, 1 << 31, u32::MAX]);
    match &mut track.stsz {
        Sizes::Common(common, _) => *common = size,
        Sizes::Each(each) => {
            let begin = random.below(each.len() + 1);
            each[begin..].fill(size);
        }
    }
}

/// How long the file is that has those bytes at least.
fn file_length(random: &mut Random, least: u64) -> u64 {
    let near = random.one(&[1 << 31, 1 << 32, 1 << 33]) - 1 + random.bits() % 3;
    let any = random.bits() >> random.one(&[1, 8, 20, 30]);
    random.one(&[least, least + 1, near, near, any, any, (1 << 63) - 1]).max(least)
}

/// Where the tables of a track stand in its moov.
fn stbl_path(track: usize) -> String {
    format!("trak:{track} mdia minf stbl")
}

/// A co64 in place of an stco, with the same version and flags and an offset of 0 for each chunk.
fn widen(table: &mut Node) {
    let chunks = (table.body.len() - 8) / 4;
    let wide = co64(&vec![0; chunks]);
    table.kind = wide.kind;
    table.body.splice(8.., wide.body[8..].iter().copied());
}

/// Gives the chunks of a track offsets within a file of that length, in stco those that it can hold. Answers the last chunk's end.
fn place_chunks(random: &mut Random, moov: &mut Node, track: usize, bytes: &[u64], length: u64) -> u64 {
    let table = moov.at(&format!("{} stco", stbl_path(track)));
    let (width, length) = if random.once_in(3) {
        (4, length.min(u64::from(u32::MAX)))
    } else {
        widen(table);
        (8, length)
    };
    let style = random.below(5);
    let mut next = random.bits() % (length + 1);
    let mut end = 0;
    for (place, bytes) in table.body[8..].chunks_exact_mut(width).zip(bytes) {
        let last = length.saturating_sub(*bytes);
        let near = (random.one(&[1 << 31, 1 << 32]) - 1 + random.bits() % 3).min(last);
        let any = offset(random, style, *bytes, length, &mut next);
        let offset = random.one(&[any, any, any, near]);
        place.copy_from_slice(&offset.to_be_bytes()[8 - width..]);
        end = end.max(offset + bytes);
    }
    end
}

/// Both tables, neither, one twice, an empty one beside it, one named as the other, or of another version.
fn spoil_offset_tables(random: &mut Random, film: &mut Node) {
    let mut stbls = containers(film);
    stbls.retain(|place| at(film, place).kind == *b"stbl");
    let Some(place) = any(random, stbls) else {
        return;
    };
    let children = &mut at(film, &place).children;
    let is_table = |node: &Node| node.kind == *b"stco" || node.kind == *b"co64";
    let Some(table) = children.iter().position(is_table) else {
        return;
    };
    let other = if children[table].kind == *b"stco" { *b"co64" } else { *b"stco" };
    match random.below(6) {
        0 => drop(children.remove(table)),
        1 => children.push(children[table].clone()),
        2 => children.push(Node { kind: other, ..children[table].clone() }),
        3 => children.push(Node { kind: other, ..stco(&[]) }),
        4 => children[table].kind = other,
        _ => children[table].body[0] = 1,
    }
}

/// Something before the moov or after it, a second moov, another type, or nothing at all.
fn spoil_top_level(random: &mut Random, film: &mut Node) {
    match random.below(5) {
        0 => film.children.insert(0, skipped(random, b"file")),
        1 => film.children.push(skipped(random, b"file")),
        2 => film.children.push(film.children[0].clone()),
        3 => film.children[0].kind = random.one(&[*b"MOOV", *b"trak", *b"free"]),
        _ => film.children.clear(),
    }
}

/// A moov as the one atom of a file, the length of the film that it is from, and where its last chunk ends.
struct LaidOut {
    film: Node,
    length: u64,
    end: u64,
}

fn laid_out(random: &mut Random, faults: &Faults) -> LaidOut {
    let tracks = track_count(random);
    let mut movie = movie_of(random, tracks, faults.tables > 0);
    for track in &mut movie.tracks {
        if random.once_in(4) {
            lengthen(random, track);
        }
    }
    let bytes: Vec<Vec<u64>> = movie.tracks.iter().map(chunk_bytes).collect();
    for _ in 0..faults.tables {
        spoil(random, &mut movie);
    }
    let mut moov = movie.moov();
    if !random.once_in(3) {
        dress(random, &mut moov);
    }
    for track in 0..movie.tracks.len() {
        // A co64 is no atom that is skipped here.
        moov.at(&stbl_path(track)).children.retain(|child| child.kind != *b"co64");
    }
    moov.size = random.one(&[Size::True, Size::True, Size::Wide, Size::Says(0)]);
    // The moov grows where a table is widened, to less than twice its length.
    let least = bytes.iter().flatten().copied().max().unwrap_or(0).max(2 * long(moov.bytes().len()));
    let length = file_length(random, least);
    let mut end = 0;
    for (track, bytes) in bytes.iter().enumerate().take(movie.tracks.len()) {
        end = end.max(place_chunks(random, &mut moov, track, bytes, length));
    }
    LaidOut { film: file(vec![moov]), length, end }
}

/// A moov that is accepted with its length.
pub fn valid(random: &mut Random) -> MoovAlone<Vec<u8>> {
    let made = laid_out(random, &Faults::default());
    MoovAlone { moov: made.film.bytes(), length: made.length }
}

/// A moov of any kind with any length.
pub fn film(random: &mut Random) -> MoovAlone<Vec<u8>> {
    let faults = faults(random);
    let LaidOut { mut film, mut length, end } = laid_out(random, &faults);
    if random.once_in(10) {
        spoil_offset_tables(random, &mut film);
    }
    if random.once_in(20) {
        spoil_top_level(random, &mut film);
    }
    let moov = spoiled_bytes(random, film, &faults);
    if random.once_in(8) {
        let lent = long(moov.len());
        length =
            random.one(&[0, lent.max(1) - 1, lent, end.max(1) - 1, end, end + 1, (1 << 63) - 1, 1 << 63, u64::MAX]);
    }
    MoovAlone { moov, length }
}
