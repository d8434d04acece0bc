//! What a clause of the refusals says where it applies: the track, the atom and the numbers that disagree.
use super::atoms::{big_endian, Atom, Leaf, MovieLeaves, Place};

/// The number with which a file is refused, and why.
pub type Refused = (u32, String);

/// A clause that applies to an atom of the movie, or of a track.
#[derive(Clone, Debug, PartialEq)]
pub struct Fault {
    /// Which track, counted from 0.
    pub track: Option<usize>,
    pub atom: [u8; 4],
    pub words: String,
}

impl Fault {
    pub fn of(atom: &[u8; 4], words: String) -> Fault {
        Fault { track: None, atom: *atom, words }
    }

    /// In full: the track, the atom and its first byte, and the words.
    pub fn said(&self, movie: &MovieLeaves) -> String {
        let track = self.track.map_or(String::new(), |at| format!("{}, ", track_name(at, &movie.tracks[at].tkhd.body)));
        format!("{track}{}: {}", self.place(movie), self.words)
    }

    fn place(&self, movie: &MovieLeaves) -> Place {
        let mut all = vec![movie.moov, movie.mvhd.place];
        let mut leaves: Vec<&Leaf> = movie.prfl.iter().collect();
        if let Some(at) = self.track {
            leaves = movie.tracks[at].read();
            leaves.extend(&movie.tracks[at].prfl);
        }
        all.extend(leaves.iter().map(|leaf| leaf.place));
        all.into_iter().find(|place| place.kind == self.atom).unwrap()
    }
}

/// The first track to which a clause applies.
pub fn in_tracks<T>(tracks: &[T], clause: impl Fn(&T) -> Option<Fault>) -> Option<Fault> {
    let applied = |(at, track): (usize, &T)| clause(track).map(|fault| Fault { track: Some(at), ..fault });
    tracks.iter().enumerate().find_map(applied)
}

/// A track by its place and, where its tkhd has one that can be read, its ID.
fn track_name(at: usize, tkhd: &[u8]) -> String {
    let place = at + 1;
    if tkhd.len() == 84 && tkhd[0] == 0 {
        return format!("track {place} (ID {})", big_endian(tkhd, 12, 4));
    }
    format!("track {place}")
}

/// The same of a trak that may not have a tkhd.
pub fn trak_name(at: usize, trak: &Atom) -> String {
    let tkhd = trak.children.iter().find(|child| child.place.kind == *b"tkhd");
    track_name(at, tkhd.map_or(&[], |tkhd| tkhd.body))
}

/// The four characters of an atom's type.
pub fn name(kind: &[u8; 4]) -> String {
    String::from_utf8_lossy(kind).into_owned()
}

/// So many things.
pub fn many(n: u64, one: &str, more: &str) -> String {
    format!("{n} {}", if n == 1 { one } else { more })
}
