//! A film as a file: the atoms at top level, the forms of their sizes, and where the chunks lie.
use super::dressing::{dress, skipped};
use super::random::Random;
use super::tables::count;
use crate::film::*;

/// Where the table of offsets of a track stands.
pub fn stco_path(track: usize) -> String {
    format!("moov trak:{track} mdia minf stbl stco")
}

/// A file of that moov, an mdat for chunks of so many bytes and atoms that are skipped, in any order. The mdat may be left out where the moov is
/// long enough, since chunks may lie anywhere.
fn top_level(random: &mut Random, moov: Node, bytes: usize) -> Vec<Node> {
    let body: Vec<u8> = (0..bytes).map(|i| u8::try_from(i % 251).unwrap()).collect();
    let mut all = vec![atom("mdat", &body)];
    if random.once_in(10) && moov.bytes().len() >= bytes {
        all.clear();
    }
    all.push(moov);
    if random.once_in(2) {
        all.reverse();
    }
    for _ in 0..random.one(&[0, 0, 0, 1, 1, 2]) {
        let new = skipped(random, b"file");
        all.insert(random.below(all.len() + 1), new);
    }
    all
}

/// Such a file with sizes in any form.
fn laid_out(random: &mut Random, moov: Node, bytes: usize) -> Node {
    let mut all = top_level(random, moov, bytes);
    for node in &mut all {
        if random.once_in(5) {
            node.size = Size::Wide;
        }
    }
    match random.below(12) {
        0 | 1 => all.iter_mut().rev().take(1).for_each(|last| last.size = Size::Says(0)),
        2 => all.push(raw(&[0; 8])),
        3 => all.push(Node { size: Size::WideSays(16), ..atom("free", &[]) }),
        _ => (),
    }
    file(all)
}

/// Where a chunk of so many bytes may begin in a file of that length: one after another, anywhere, at the beginning, or just before the end.
pub fn offset(random: &mut Random, style: usize, bytes: u64, length: u64, next: &mut u64) -> u64 {
    let last = length.saturating_sub(bytes);
    let in_order = (*next).min(last);
    *next = in_order + bytes;
    match style {
        0 => in_order,
        1 => random.bits() % (last + 1),
        2 => 0,
        3 => last,
        _ => {
            let anywhere = random.bits() % (last + 1);
            random.one(&[in_order, anywhere, last, 0])
        }
    }
}

/// Gives the chunks of a track their offsets: so many bytes each, all within the file if they can be.
fn place_chunks(random: &mut Random, film: &mut Node, track: usize, bytes: &[u64], length: u64) {
    let stco = film.at(&stco_path(track));
    let style = random.below(5);
    let mut next = random.bits() % (length + 1);
    let places = (stco.body.len() - 8) / 4;
    for (i, bytes) in bytes.iter().take(places).enumerate() {
        let offset = u32::try_from(offset(random, style, *bytes, length, &mut next)).unwrap();
        stco.set("", 16 + 4 * i, offset);
    }
}

/// A file of a movie that is not refused if the movie's tables agree; `bytes` are those of each chunk of each track.
pub fn film_of(random: &mut Random, movie: &Movie, bytes: &[Vec<u64>]) -> Node {
    let mut moov = movie.moov();
    if !random.once_in(3) {
        dress(random, &mut moov);
    }
    let most = bytes.iter().flatten().max().copied().unwrap_or(0);
    let most = usize::try_from(most).unwrap();
    let room = random.one(&[most, most, most + 1, most + 500, 2 * most]);
    let mut film = laid_out(random, moov, room);
    let length = u64::from(count(film.bytes().len()));
    for (track, bytes) in bytes.iter().enumerate().take(movie.tracks.len()) {
        place_chunks(random, &mut film, track, bytes, length);
    }
    film
}
