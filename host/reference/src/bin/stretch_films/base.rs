//! The list of films, and the tracks that they are made from.
use super::asks::Ask;
use reference::film::*;
pub use reference::made::*;
use reference::movie::refusals::read;
use reference::movie::tables;

pub struct Film {
    pub number: u32,
    pub name: String,
    pub bytes: Vec<u8>,
    /// The film as the reference reads it, from which the rooms of its questions are measured.
    pub movie: Option<tables::Movie>,
    pub asks: Vec<Ask>,
    pub said: Vec<String>,
}

pub struct Films {
    pub list: Vec<Film>,
}

/// The durations of samples, and the total that mdhd has of them.
pub fn lasting(track: &mut Track, stts: &[(u32, u32)]) {
    track.duration = stts.iter().map(|(count, duration)| count * duration).sum();
    track.stts = stts.to_vec();
}

/// Samples of those sizes, a chunk for each, at those offsets.
pub fn a_chunk_each(track: &mut Track, chunks: &[(u32, u32)]) {
    track.stsc = vec![(1, 1, 1)];
    track.stco = chunks.iter().map(|(offset, _)| *offset).collect();
    track.stsz = Sizes::Each(chunks.iter().map(|(_, size)| *size).collect());
}

impl Films {
    pub fn new() -> Films {
        Films { list: Vec::new() }
    }

    pub fn node(&mut self, number: u32, name: &str, film: Node) -> &mut Film {
        assert!(!self.list.iter().any(|film| film.number == number && film.name == name), "{number}-{name} twice");
        let bytes = film.bytes();
        let movie = read(&bytes).ok();
        self.list.push(Film { number, name: name.to_string(), bytes, movie, asks: Vec::new(), said: Vec::new() });
        self.list.last_mut().unwrap()
    }

    /// A film of W's track after a change, not refused.
    pub fn one(&mut self, name: &str, change: impl FnOnce(&mut Track)) -> &mut Film {
        self.node(0, name, movie(&[w_with(change)]).file_of(SMALL))
    }

    /// A film of several tracks, not refused.
    pub fn tracks(&mut self, name: &str, tracks: &[Track]) -> &mut Film {
        self.node(0, name, movie(tracks).file_of(LARGE))
    }
}
