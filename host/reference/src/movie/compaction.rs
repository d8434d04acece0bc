//! Document 02, "Closing up wasteful tables": the moov atom written anew, its stts and stsc with the fewest entries. Here that is called compaction.
use super::atoms::{of_kind, tree, visit, Atom, TOP};
use super::lent::Film;
use super::questions::{answered, NO_ROOM};
use super::refusals::read;
use super::tables::{Movie, Track};
use std::ops::Range;

/// Where in the file the moov atom begins and ends.
fn moov_bytes(file: &[u8]) -> Range<usize> {
    let mut found = 0..0;
    visit(TOP, 0, file, &mut |parent, place, size| {
        if parent == TOP && place.kind == *b"moov" {
            found = place.at..place.at + size;
        }
    });
    found
}

/// The one child of that type, of a file that is not refused 3.
fn child<'a, 'f>(parent: &'a Atom<'f>, kind: &[u8; 4]) -> &'a Atom<'f> {
    of_kind(&parent.children, kind)[0]
}

/// The runs of equal neighbours: how many are before each run, how many are in it, and the value.
fn runs<T: PartialEq>(each: impl IntoIterator<Item = T>) -> Vec<(u32, u32, T)> {
    let mut runs: Vec<(u32, u32, T)> = Vec::new();
    for (before, value) in (0..).zip(each) {
        match runs.last_mut() {
            Some((_, count, last)) if *last == value => *count += 1,
            _ => runs.push((before, 1, value)),
        }
    }
    runs
}

fn short(n: u64) -> u32 {
    u32::try_from(n).unwrap()
}

/// The numbers of an stts "having the fewest entries that deal out the same samples": an entry for each run of equal durations
fn stts_entries(track: &Track) -> Vec<Vec<u32>> {
    let durations = track.samples.iter().map(|sample| sample.duration);
    runs(durations).into_iter().map(|(_, count, duration)| vec![count, short(duration)]).collect()
}

/// The same of an stsc: an entry for each run of chunks with as many samples of one description
fn stsc_entries(track: &Track) -> Vec<Vec<u32>> {
    let dealt = track.chunks.iter().map(|chunk| (chunk.samples, chunk.description_id));
    runs(dealt).into_iter().map(|(before, _, (samples, id))| vec![before + 1, short(samples), short(id)]).collect()
}

/// A leaf with other entries: "whole size | 16+8n", "n at 12". Version and flags stay.
fn with_entries(leaf: &Atom, entries: &[Vec<u32>]) -> Vec<u8> {
    let numbers: Vec<u32> = entries.concat();
    let count = u32::try_from(entries.len()).unwrap();
    let size = u32::try_from(16 + 4 * numbers.len()).unwrap();
    let mut bytes = [&size.to_be_bytes(), &leaf.place.kind, &leaf.body[..4], &count.to_be_bytes()].concat();
    bytes.extend(numbers.into_iter().flat_map(u32::to_be_bytes));
    bytes
}

/// "The bytes freed in a track, if any, become one 'free' atom, zero-filled, last in its stbl (a multiple of four, at least 8)."
fn free_atom(freed: usize) -> Vec<u8> {
    if freed == 0 {
        return Vec::new();
    }
    let mut bytes = [u32::try_from(freed).unwrap().to_be_bytes(), *b"free"].concat();
    bytes.resize(freed, 0);
    bytes
}

/// The body of an stbl written anew: "all else copied in order". Its children are leaves, and as none is at top level each has a header of 8 bytes.
fn compact_stbl(file: &[u8], stbl: &Atom, track: &Track) -> Vec<u8> {
    let mut bytes = Vec::new();
    let mut length = 0;
    for leaf in &stbl.children {
        let whole = &file[leaf.place.at..leaf.place.at + 8 + leaf.body.len()];
        bytes.extend(match &leaf.place.kind {
            b"stts" => with_entries(leaf, &stts_entries(track)),
            b"stsc" => with_entries(leaf, &stsc_entries(track)),
            _ => whole.to_vec(),
        });
        length += whole.len();
    }
    bytes.extend(free_atom(length - bytes.len()));
    bytes
}

impl Movie {
    /// The moov atom written anew, of the bytes that the movie was read from. Each stbl is as long as it was, "so no offset moves", and all outside
    /// of them is copied.
    pub fn compact_moov(&self, file: &[u8]) -> Vec<u8> {
        let top = tree(file).unwrap();
        let moov = of_kind(&top, b"moov")[0];
        let extent = moov_bytes(file);
        let mut bytes = file[extent.clone()].to_vec();
        for (trak, track) in of_kind(&moov.children, b"trak").into_iter().zip(&self.tracks) {
            let stbl = child(child(child(trak, b"mdia"), b"minf"), b"stbl");
            let body = compact_stbl(file, stbl, track);
            let begin = stbl.place.at + 8 - extent.start;
            bytes[begin..begin + body.len()].copy_from_slice(&body);
        }
        bytes
    }
}

/// "Write the moov atom anew into lent room of its own length, which is returned"; "Refusals: the file's, then 16."
pub fn compact(film: &(impl Film + ?Sized), room: &mut [u8]) -> (u32, u64) {
    answered(read(film).and_then(|movie| {
        let moov = movie.compact_moov(film.lent().bytes);
        if room.len() < moov.len() {
            return Err(NO_ROOM);
        }
        room[..moov.len()].copy_from_slice(&moov);
        Ok(u64::try_from(moov.len()).unwrap())
    }))
}

/// The film with its moov written anew where it stands; of a moov alone, the moov.
pub fn compact_film(film: &(impl Film + ?Sized)) -> Result<Vec<u8>, u32> {
    let lent = film.lent().bytes;
    let moov = read(film)?.compact_moov(lent);
    let mut bytes = lent.to_vec();
    bytes[moov_bytes(lent)].copy_from_slice(&moov);
    Ok(bytes)
}
