//! Films at the greatest length and past it. Almost all of each is a hole in a sparse file.
use crate::mapped::Mapped;
use reference::film::*;
use reference::made::{movie, w_with};
use std::fs::{remove_file, File, OpenOptions};
use std::io;
use std::os::unix::fs::FileExt;
use std::path::PathBuf;

/// "the file is longer than 2,147,483,647 bytes"
const LONGEST: u32 = 2_147_483_647;

/// A film given by its length and the bytes that are not 0.
pub struct BigFilm {
    pub name: &'static str,
    length: u64,
    pieces: Vec<(u64, Vec<u8>)>,
}

fn long(n: usize) -> u64 {
    u64::try_from(n).unwrap()
}

/// A film of that moov and an mdat for the rest, whose size is written so.
fn moov_first(name: &'static str, track: Track, length: u64, size: impl Fn(u64) -> Size) -> BigFilm {
    let mut bytes = movie(&[track]).moov().bytes();
    let rest = length - long(bytes.len());
    bytes.extend(Node { size: size(rest), ..atom("mdat", &[]) }.bytes());
    BigFilm { name, length, pieces: vec![(0, bytes)] }
}

/// A film with the moov at its very end.
fn moov_last(name: &'static str, track: Track, length: u64) -> BigFilm {
    let moov = movie(&[track]).moov().bytes();
    let place = length - long(moov.len());
    let mdat = Node { size: Size::WideSays(place), ..atom("mdat", &[]) }.bytes();
    BigFilm { name, length, pieces: vec![(0, mdat), (place, moov)] }
}

/// W's track with its chunks, of 150 and 70 bytes, at the end of a file of the greatest length, or so many bytes further.
fn at_the_end(further: u32) -> Track {
    w_with(|track| track.stco = vec![LONGEST - 150, LONGEST - 70 + further])
}

/// Three samples that are each the whole file, and one of no bytes at its end: their bytes are more than 2^32.
fn overlapping() -> Track {
    w_with(|track| {
        track.stsc = vec![(1, 1, 1)];
        track.stsz = Sizes::Each(vec![LONGEST, LONGEST, LONGEST, 0]);
        track.stco = vec![0, 0, 0, LONGEST];
    })
}

/// W, whole, at the beginning of a file whose length is W's modulo 2^32.
fn w_and_4_gib() -> BigFilm {
    BigFilm { name: "W and 4 GiB after it", length: (1 << 32) + 4096, pieces: vec![(0, w().bytes())] }
}

pub fn films() -> Vec<BigFilm> {
    let longest = u64::from(LONGEST);
    let short = |rest: u64| Size::Says(u32::try_from(rest).unwrap());
    let to_the_end = |_| Size::Says(0);
    vec![
        moov_first("2,147,483,647 bytes, 64-bit size", at_the_end(0), longest, Size::WideSays),
        moov_first("2,147,483,647 bytes, 32-bit size", overlapping(), longest, short),
        moov_first("2,147,483,647 bytes, size 0", overlapping(), longest, to_the_end),
        moov_last("2,147,483,647 bytes, moov last", at_the_end(0), longest),
        moov_first("2,147,483,647 bytes, a chunk one byte past the end", at_the_end(1), longest, to_the_end),
        moov_first("2,147,483,647 bytes, an atom one byte past the end", at_the_end(0), longest, |rest| {
            Size::WideSays(rest + 1)
        }),
        moov_first("2,147,483,648 bytes, 64-bit size", at_the_end(0), longest + 1, Size::WideSays),
        moov_first("2,147,483,648 bytes, size 0", at_the_end(0), longest + 1, to_the_end),
        moov_first("2,147,483,648 bytes, an atom too long", at_the_end(0), longest + 1, |rest| {
            Size::WideSays(2 * rest)
        }),
        w_and_4_gib(),
    ]
}

/// A file that is removed when it is no longer needed.
struct Temporary(PathBuf);

impl Drop for Temporary {
    fn drop(&mut self) {
        // There is nobody to tell if that fails.
        let _ = remove_file(&self.0);
    }
}

impl BigFilm {
    /// The film as a sparse file in the folder for temporary files, mapped. The file has no name any more when this returns, and is gone with its mapping.
    pub fn mapped(&self) -> io::Result<Mapped> {
        let path = std::env::temp_dir().join(format!("chaldoref-compare-{}.mov", std::process::id()));
        let file: File = OpenOptions::new().read(true).write(true).create_new(true).open(&path)?;
        let _removed_later = Temporary(path);
        file.set_len(self.length)?;
        for (offset, bytes) in &self.pieces {
            file.write_all_at(bytes, *offset)?;
        }
        Mapped::of(&file)
    }
}
