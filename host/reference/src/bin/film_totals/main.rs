//! What crates/film_totals is run on, and its lines, from the reference.
//!
//! Writes to the folder that is its argument what stands beside the program's src/: the names on standard input, the files that they name, and the lines.
use reference::film::*;
use reference::film_return::printed;
use reference::hoses::two_hoses;
use reference::movie::refusal;

/// The most bytes of a file that the program reads.
const MOST: usize = 65_536;

/// W's tables in a file of so many bytes, the rest of which is a free atom.
fn padded(length: usize) -> Vec<u8> {
    let moov = w_movie().moov();
    let free = atom("free", &vec![7; length - moov.bytes().len() - 8]);
    file(vec![moov, free]).bytes()
}

/// So many tracks, each of a scale of its own.
fn scales(count: u32, first: u32) -> Vec<u8> {
    let track = |i| Track { id: i + 1, scale: first + i, stco: vec![0, 8], ..w_track() };
    Movie { tracks: (0..count).map(track).collect(), ..w_movie() }.file().bytes()
}

/// The files by name, each with the number that it is refused with by itself.
fn files() -> Vec<(&'static str, u32, Vec<u8>)> {
    let mut other = w_movie();
    other.tracks[0].stco = vec![1000, 4027];
    vec![
        ("w.mov", 0, w().bytes()),
        ("two-hoses.mov", 0, two_hoses().bytes()),
        ("empty.mov", 3, vec![]),
        ("past-end.mov", 12, other.file_of(4096).bytes()),
        ("no-tracks.mov", 0, Movie { tracks: vec![], ..w_movie() }.file().bytes()),
        ("65536-bytes.mov", 0, padded(MOST)),
        ("65537-bytes.mov", 0, padded(MOST + 1)),
        ("16-scales.mov", 0, scales(16, 1000)),
        ("15-scales.mov", 0, scales(15, 2000)),
        ("one-more.mov", 0, scales(1, 3000)),
    ]
}

/// Names of every kind: a film filed twice, one of equal bytes, refused films, ones that are not there, too long or no file, an empty name, one with a zero
/// byte and one with a carriage return, a thirty-third scale, and after it a film that is counted. The last has no line feed.
const NAMES: &[u8] = b"w.mov\ntwo-hoses.mov\nw.mov\nempty.mov\n\nmissing.mov\n.\npast-end.mov\nw.mov\0\nw.mov\r\nno-tracks.mov\n65536-bytes.mov\n65537-bytes.mov\n16-scales.mov\n15-scales.mov\none-more.mov\n16-scales.mov\nempty.mov";

fn main() {
    let arguments: Vec<String> = std::env::args().collect();
    let [_, program] = &arguments[..] else {
        panic!("film_totals PROGRAM");
    };
    let files = files();
    for (name, number, bytes) in &files {
        assert_eq!(refusal(bytes), *number, "{name}");
        std::fs::write(format!("{program}/data/{name}"), bytes).unwrap();
    }
    let contents = |name: &[u8]| files.iter().find(|file| file.0.as_bytes() == name).map(|file| file.2.clone());
    std::fs::write(format!("{program}/stdin"), NAMES).unwrap();
    std::fs::write(format!("{program}/stdout"), printed(NAMES, contents)).unwrap();
}
