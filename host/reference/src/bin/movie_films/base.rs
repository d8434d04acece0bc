//! The list of films, and the tracks that they are made from.
use reference::film::*;
pub use reference::made::{edits, empty_track, sound_track};

/// A track with W's tables, whose bytes lie in any file that holds them.
pub fn track(id: u32) -> Track {
    Track { id, stco: vec![0, 8], ..w_track() }
}

/// So many small tracks, with the IDs from 1 on.
pub fn tracks(n: u32) -> Vec<Track> {
    (1..=n).map(track).collect()
}

/// As many tracks as are allowed, without samples, so that the film is small.
pub fn sixteen() -> Vec<Track> {
    (1..=16).map(empty_track).collect()
}

/// A movie of those tracks, in a file with nothing else.
pub fn movie(tracks: &[Track]) -> Node {
    Movie { tracks: tracks.to_vec(), ..w_movie() }.file()
}

/// The same with another time scale of the movie.
pub fn scaled(scale: u32, tracks: &[Track]) -> Node {
    Movie { scale, tracks: tracks.to_vec(), ..w_movie() }.file()
}

/// A film and the numbers with which it is refused, by default and where strict reading is asked for.
pub struct Film {
    pub number: u32,
    pub strict: u32,
    pub name: String,
    pub bytes: Vec<u8>,
}

impl Film {
    /// "11 only where strict reading is asked for, in its old place"
    pub fn strictly_11(&mut self) {
        self.strict = 11;
    }
}

pub struct Films {
    list: Vec<Film>,
}

impl Films {
    pub fn new() -> Films {
        Films { list: Vec::new() }
    }

    pub fn bytes(&mut self, number: u32, name: &str, bytes: Vec<u8>) -> &mut Film {
        assert!(!self.list.iter().any(|film| film.number == number && film.name == name), "{number}-{name} twice");
        self.list.push(Film { number, strict: number, name: name.to_string(), bytes });
        self.list.last_mut().unwrap()
    }

    pub fn node(&mut self, number: u32, name: &str, film: Node) -> &mut Film {
        self.bytes(number, name, film.bytes())
    }

    /// A film of those tracks.
    pub fn tracks(&mut self, number: u32, name: &str, tracks: &[Track]) -> &mut Film {
        self.node(number, name, movie(tracks))
    }

    /// A film of one small track after a change.
    pub fn one(&mut self, number: u32, name: &str, change: impl FnOnce(&mut Track)) -> &mut Film {
        let mut one = track(1);
        change(&mut one);
        self.tracks(number, name, &[one])
    }

    /// A film of so many small tracks, of which the one with that ID is changed.
    pub fn of(&mut self, number: u32, name: &str, count: u32, id: u32, change: impl FnOnce(&mut Track)) -> &mut Film {
        let mut all = tracks(count);
        change(all.iter_mut().find(|track| track.id == id).unwrap());
        self.tracks(number, name, &all)
    }

    /// All films by number, those of one number in the order in which they were made.
    pub fn in_order(mut self) -> Vec<Film> {
        self.list.sort_by_key(|film| film.number);
        self.list
    }
}
