//! The list of films, the two films that most others are made from, and the names of their atoms.
use reference::film::*;
pub use reference::made::empty_track;

pub const STBL: &str = "moov trak mdia minf stbl";

/// Every container of `full`.
pub const CONTAINERS: [(&str, &str); 7] = [
    ("moov", "moov"),
    ("trak", "moov trak"),
    ("edts", "moov trak edts"),
    ("mdia", "moov trak mdia"),
    ("minf", "moov trak mdia minf"),
    ("dinf", "moov trak mdia minf dinf"),
    ("stbl", "moov trak mdia minf stbl"),
];

/// Every read leaf of `full`.
pub const LEAVES: [(&str, &str); 13] = [
    ("mvhd", "moov mvhd"),
    ("tkhd", "moov trak tkhd"),
    ("elst", "moov trak edts elst"),
    ("mdhd", "moov trak mdia mdhd"),
    ("hdlr", "moov trak mdia hdlr"),
    ("dref", "moov trak mdia minf dinf dref"),
    ("stsd", "moov trak mdia minf stbl stsd"),
    ("stts", "moov trak mdia minf stbl stts"),
    ("ctts", "moov trak mdia minf stbl ctts"),
    ("stsc", "moov trak mdia minf stbl stsc"),
    ("stsz", "moov trak mdia minf stbl stsz"),
    ("stco", "moov trak mdia minf stbl stco"),
    ("stss", "moov trak mdia minf stbl stss"),
];

/// The path of a read leaf.
pub fn path(name: &str) -> &'static str {
    LEAVES.iter().find(|(leaf, _)| *leaf == name).unwrap().1
}

/// The words for small numbers in names.
pub const WORDS: [&str; 16] = [
    "zero", "one", "two", "three", "four", "five", "six", "seven", "eight", "nine", "ten", "eleven", "twelve",
    "thirteen", "fourteen", "fifteen",
];

/// So many bytes, in words.
pub fn bytes(n: usize) -> String {
    format!("{}-{}", WORDS[n], if n == 1 { "byte" } else { "bytes" })
}

/// A track with W's tables, whose bytes lie in any file that holds them.
pub fn small_track() -> Track {
    Track { stco: vec![0, 8], ..w_track() }
}

/// A sound track with the same tables and a description of 16 bytes.
pub fn sound_track() -> Track {
    Track { id: 2, subtype: *b"soun", descriptions: vec![description(b"twos", 16)], ..small_track() }
}

/// A track with every table and a profile.
pub fn full_track() -> Track {
    Track {
        ctts: Some(vec![(3, 0), (1, -4)]),
        stss: Some(vec![1, 4]),
        edits: Some(vec![(60, -1, 65536), (60, 24, 65536)]),
        profile: Some(vec![[0, 1, u32::from_be_bytes(*b"avvb"), 8800]]),
        ..small_track()
    }
}

pub fn movie(tracks: &[Track]) -> Node {
    Movie { tracks: tracks.to_vec(), ..w_movie() }.file()
}

/// A movie without tracks, for what is decided at top level.
pub fn tiny() -> Node {
    movie(&[])
}

/// A movie of one small track and nothing else.
pub fn small() -> Node {
    movie(&[small_track()])
}

/// A movie of one track with every atom that is read, and a profile for each.
pub fn full() -> Node {
    Movie { profile: Some(vec![[0, 0, 1, 2]]), tracks: vec![full_track()], ..w_movie() }.file()
}

pub struct Film {
    pub number: u32,
    pub name: String,
    pub bytes: Vec<u8>,
}

pub struct Films {
    list: Vec<Film>,
}

impl Films {
    pub fn new() -> Films {
        Films { list: Vec::new() }
    }

    pub fn bytes(&mut self, number: u32, name: &str, bytes: Vec<u8>) {
        assert!(!self.list.iter().any(|film| film.number == number && film.name == name), "{number}-{name} twice");
        self.list.push(Film { number, name: name.to_string(), bytes });
    }

    pub fn node(&mut self, number: u32, name: &str, film: Node) {
        self.bytes(number, name, film.bytes());
    }

    /// The film without tracks after a change.
    pub fn tiny(&mut self, number: u32, name: &str, change: impl FnOnce(&mut Node)) {
        let mut film = tiny();
        change(&mut film);
        self.node(number, name, film);
    }

    /// The small film after a change.
    pub fn small(&mut self, number: u32, name: &str, change: impl FnOnce(&mut Node)) {
        let mut film = small();
        change(&mut film);
        self.node(number, name, film);
    }

    /// The full film after a change.
    pub fn full(&mut self, number: u32, name: &str, change: impl FnOnce(&mut Node)) {
        let mut film = full();
        change(&mut film);
        self.node(number, name, film);
    }

    /// A film of one track.
    pub fn track(&mut self, number: u32, name: &str, track: Track) {
        self.node(number, name, movie(&[track]));
    }

    /// All films by number, those of one number in the order in which they were made.
    pub fn in_order(mut self) -> Vec<Film> {
        self.list.sort_by_key(|film| film.number);
        self.list
    }
}
