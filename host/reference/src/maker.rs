//! Films and slips for comparing the library with the reference, each following from a seed alone: valid ones of every kind, ones that cross a rule
//! of document 01 by a little or just don't, ones with several faults, and ones damaged at random. What a film is refused for, the reference says.
pub mod alone;
pub mod claims;
pub mod damage;
pub mod dressing;
pub mod edits;
pub mod faults;
pub mod layout;
pub mod limits;
pub mod movies;
pub mod places;
pub mod quay;
pub mod random;
pub mod slips;
pub mod tables;

use crate::film::{atom, Node};
use crate::made::{spoiled, w_with, SMALL};
use faults::{leaves, offsets, tables as faulty, tree};
use layout::film_of;
use movies::{movie_of, track_count};
pub use random::Random;
use tables::chunk_bytes;

/// How many faults of each kind a film gets.
#[derive(Default)]
struct Faults {
    tables: usize,
    sizes: usize,
    offsets: usize,
    tree: usize,
    leaves: usize,
    damage: usize,
    bytes: usize,
}

/// None, one, or several.
fn faults(random: &mut Random) -> Faults {
    let none = Faults::default();
    let some = random.one(&[1, 1, 1, 2]);
    match random.below(20) {
        0..=7 => none,
        8..=10 => Faults { tables: some, ..none },
        11 => Faults { offsets: some, ..none },
        12 => Faults { sizes: 1, ..none },
        13 => Faults { tree: some, ..none },
        14 => Faults { leaves: some, ..none },
        15 => Faults { tables: 1 + random.below(2), offsets: random.below(2), ..none },
        16 => Faults { tables: random.below(2), tree: random.below(2), leaves: random.below(2), ..none },
        17 => Faults { damage: 1 + random.below(3), ..none },
        18 => Faults { tables: random.below(2), damage: random.below(2), bytes: 1, ..none },
        _ => Faults { bytes: 1, ..none },
    }
}

fn tables_with(random: &mut Random, faults: &Faults) -> Node {
    let tracks = track_count(random);
    let mut movie = movie_of(random, tracks, faults.tables + faults.offsets + faults.sizes > 0);
    let bytes: Vec<Vec<u64>> = movie.tracks.iter().map(chunk_bytes).collect();
    for _ in 0..faults.tables {
        faulty::spoil(random, &mut movie);
    }
    for _ in 0..faults.sizes {
        offsets::spoil_sizes(random, &mut movie);
    }
    let mut film = film_of(random, &movie, &bytes);
    for _ in 0..faults.offsets {
        if !bytes.is_empty() {
            let track = random.below(bytes.len());
            offsets::spoil_offset(random, &mut film, track, &bytes[track]);
        }
    }
    film
}

/// One of the films that are W but for one place.
fn near_w(random: &mut Random) -> Node {
    let films = spoiled(&w_with(|_| ()), |track| crate::made::movie(&[track]).file_of(SMALL));
    let which = random.below(films.len());
    films.into_iter().nth(which).unwrap().2
}

/// A film that is accepted.
pub fn valid(random: &mut Random) -> Vec<u8> {
    tables_with(random, &Faults::default()).bytes()
}

/// A film that is accepted, with an mvex in its moov and fragments at its end, or one of the two, or neither.
pub fn fragmented(random: &mut Random) -> Vec<u8> {
    let mut film = tables_with(random, &Faults::default());
    if random.once_in(2) {
        film.push("moov", atom("mvex", &[0; 3]));
    }
    // After an atom that runs to the end of the file no other can stand.
    let is_open = film.children.last().is_some_and(|last| last.bytes().starts_with(&[0; 4]));
    for _ in 0..if is_open { 0 } else { random.below(3) } {
        film.push("", atom("moof", &[0; 9]));
        film.push("", atom("mdat", &[0; 20]));
    }
    film.bytes()
}

/// A few bytes that are hardly a film.
fn any_bytes(random: &mut Random) -> Vec<u8> {
    let length = random.below(40);
    let mut bytes = random.bytes(length);
    if length >= 8 {
        bytes[..4].copy_from_slice(&tables::count(random.below(length + 2)).to_be_bytes());
        bytes[4..8].copy_from_slice(random.one(&[b"moov", b"free"]));
    }
    bytes
}

/// A film of any kind.
pub fn film(random: &mut Random) -> Vec<u8> {
    if random.once_in(200) {
        return any_bytes(random);
    }
    let faults = faults(random);
    let film = if random.once_in(100) { near_w(random) } else { tables_with(random, &faults) };
    spoiled_bytes(random, film, &faults)
}

/// The bytes of a film that is laid out, with the faults that do not ask for its tables.
fn spoiled_bytes(random: &mut Random, mut film: Node, faults: &Faults) -> Vec<u8> {
    for _ in 0..faults.tree {
        if random.once_in(2) {
            tree::spoil_size(random, &mut film);
        } else {
            tree::spoil_count(random, &mut film);
        }
    }
    for _ in 0..faults.leaves {
        leaves::spoil(random, &mut film);
    }
    for _ in 0..faults.damage {
        damage::damage(random, &mut film);
    }
    let mut bytes = film.bytes();
    for _ in 0..faults.bytes {
        damage::damage_bytes(random, &mut bytes);
    }
    bytes
}
