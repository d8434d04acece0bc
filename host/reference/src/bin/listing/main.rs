//! What crates/listing is run on, and its lines, from the reference.
//!
//! Writes to the folder that is its first argument what stands beside the program's src/: the film on standard input, the arguments, the files that
//! they name, and the lines. Writes the films that the README shows to the folder that is its second.
use reference::film::*;
use reference::hoses::two_hoses;
use reference::made::{edits, sound_track};
use reference::movie::{listing, refusal};

/// The most bytes that the program reads.
const MOST: usize = 65_536;

/// W's tables in a file of so many bytes, the rest of which is a free atom.
fn padded(length: usize) -> Vec<u8> {
    let moov = w_movie().moov();
    let free = atom("free", &vec![7; length - moov.bytes().len() - 8]);
    file(vec![moov, free]).bytes()
}

/// Three tracks that differ in each column.
fn three_tracks() -> Vec<u8> {
    let picture = Track { id: 300, edits: edits(&[(60, -1), (60, 24)]), ..w_track() };
    let sound = sound_track(20, [900, 912, 924]);
    // A subtype whose first digits are zeros, and the greatest ID.
    let unnamed = Track {
        id: u32::MAX,
        subtype: [0, 0, 0x0a, 0xbc],
        scale: 90000,
        duration: 0,
        stts: vec![],
        stsc: vec![],
        stsz: Sizes::Each(vec![]),
        stco: vec![],
        edits: edits(&[(1, -1); 256]),
        ..w_track()
    };
    Movie { tracks: vec![picture, sound, unnamed], ..w_movie() }.file_of(6000).bytes()
}

/// As many tracks as are allowed, which is as much as the program's room holds.
fn sixteen_tracks() -> Vec<u8> {
    let track = |id| Track { id, stco: vec![0, 8], ..w_track() };
    Movie { tracks: (1..=16).map(track).collect(), ..w_movie() }.file().bytes()
}

/// The files by name, each with the number that it is refused with by itself.
fn files() -> Vec<(&'static str, u32, Vec<u8>)> {
    let mut other = w_movie();
    other.tracks[0].duration = 121;
    vec![
        ("two-hoses.mov", 0, two_hoses().bytes()),
        ("mdhd-121.mov", 0, other.file_of(4096).bytes()),
        ("empty.mov", 3, vec![]),
        ("65536-bytes.mov", 0, padded(MOST)),
        ("65537-bytes.mov", 0, padded(MOST + 1)),
        ("no-tracks.mov", 0, Movie { tracks: vec![], ..w_movie() }.file().bytes()),
        ("three-tracks.mov", 0, three_tracks()),
        ("16-tracks.mov", 0, sixteen_tracks()),
    ]
}

/// W with the edits of document 02's example: "W with the edits (60,-1),(60,24)".
fn w_edited() -> Vec<u8> {
    let edited = Track { edits: Some(vec![(60, -1, 65536), (60, 24, 65536)]), ..w_track() };
    Movie { tracks: vec![edited], ..w_movie() }.file_of(4096).bytes()
}

fn main() {
    let arguments: Vec<String> = std::env::args().collect();
    let [_, program, shown] = &arguments[..] else {
        panic!("listing PROGRAM SHOWN");
    };
    let film = w().bytes();
    let mut args = "-\n".to_string();
    let mut lines = listing(&film);
    std::fs::write(format!("{program}/stdin"), &film).unwrap();
    for (name, number, bytes) in files() {
        assert_eq!(refusal(&bytes), number, "{name}");
        std::fs::write(format!("{program}/data/{name}"), &bytes).unwrap();
        args += &format!("{name}\n");
        lines += &listing(&bytes);
    }
    std::fs::write(format!("{program}/args"), args).unwrap();
    std::fs::write(format!("{program}/stdout"), lines).unwrap();
    std::fs::write(format!("{shown}/w.mov"), film).unwrap();
    std::fs::write(format!("{shown}/two-hoses.mov"), two_hoses().bytes()).unwrap();
    std::fs::write(format!("{shown}/w-edits.mov"), w_edited()).unwrap();
}
