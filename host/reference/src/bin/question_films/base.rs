//! The list of films, and the tracks that they are made from.
use super::asks::Ask;
use reference::film::*;
pub use reference::made::*;

pub struct Film {
    pub number: u32,
    pub name: String,
    pub bytes: Vec<u8>,
    pub asks: Vec<Ask>,
    pub said: Vec<String>,
}

pub struct Films {
    pub list: Vec<Film>,
}

impl Films {
    pub fn new() -> Films {
        Films { list: Vec::new() }
    }

    pub fn bytes(&mut self, number: u32, name: &str, bytes: Vec<u8>) -> &mut Film {
        assert!(!self.list.iter().any(|film| film.number == number && film.name == name), "{number}-{name} twice");
        self.list.push(Film { number, name: name.to_string(), bytes, asks: Vec::new(), said: Vec::new() });
        self.list.last_mut().unwrap()
    }

    pub fn node(&mut self, number: u32, name: &str, film: Node) -> &mut Film {
        self.bytes(number, name, film.bytes())
    }

    /// A film of W's track after a change, not refused.
    pub fn one(&mut self, name: &str, change: impl FnOnce(&mut Track)) -> &mut Film {
        self.node(0, name, movie(&[w_with(change)]).file_of(SMALL))
    }

    /// A film of several tracks, not refused.
    pub fn tracks(&mut self, name: &str, tracks: &[Track]) -> &mut Film {
        self.movie(name, movie(tracks))
    }

    /// The same of a whole movie.
    pub fn movie(&mut self, name: &str, movie: Movie) -> &mut Film {
        self.node(0, name, movie.file_of(LARGE))
    }
}
