//! What the makers of the test programs' films share: tracks made from W's, films spoiled in one place each, and how a film is stored with its questions.
use crate::film::*;
use crate::movie::refusal;

/// As many bytes as a film of one track has. The samples of W's track lie in its mdat.
pub const SMALL: usize = 1280;

/// As many bytes as a film of several tracks has, and where the chunks of each lie in its mdat if nothing else is said.
pub const LARGE: usize = 3072;
pub const CHUNKS: [u32; 2] = [2700, 2600];

/// W's track after a change.
pub fn w_with(change: impl FnOnce(&mut Track)) -> Track {
    let mut track = w_track();
    change(&mut track);
    track
}

/// One of several tracks: W's with that ID after a change.
pub fn track(id: u32, change: impl FnOnce(&mut Track)) -> Track {
    let mut track = Track { id, stco: CHUNKS.to_vec(), ..w_track() };
    change(&mut track);
    track
}

/// A track without samples, chunks and descriptions.
pub fn empty_track(id: u32) -> Track {
    Track {
        id,
        duration: 0,
        descriptions: vec![],
        stts: vec![],
        stsc: vec![],
        stsz: Sizes::Each(vec![]),
        stco: vec![],
        ..w_track()
    }
}

/// A track that keeps every rule of the quay film profile: 25 frames a second, and the second chunk just after the first.
pub fn quay_track(id: u32) -> Track {
    Track {
        id,
        duration: 96,
        stts: vec![(4, 24)],
        stsz: Sizes::Each(vec![100, 50, 30, 70]),
        stco: vec![2600, 2780],
        ..w_track()
    }
}

/// The same, but that it breaks that rule alone.
pub fn breaking(mut track: Track, rule: u64) -> Track {
    match rule {
        2 => track.edits = edits(&[(1, 0), (1, -1)]),
        3 => track.descriptions.push(picture(1, 1)),
        4 => track.ctts = Some(vec![(4, 0)]),
        5 => track.stss = Some(vec![2]),
        6 => track.stsz = Sizes::Each(vec![100, 0, 30, 70]),
        7 => track.stts = vec![(1, 24), (1, 0), (2, 24)],
        8 => track.stco[1] = 2650,
        9 => track.scale = 721,
        _ => panic!(),
    }
    track
}

/// A track of so many samples of a byte in one chunk, with those sync samples, that keeps every other rule of that profile.
pub fn quay_syncs(samples: u32, stss: Option<Vec<u32>>) -> Track {
    let (stts, stsc) = (vec![(samples, 24)], vec![(1, samples, 1)]);
    Track { stts, stsc, stsz: Sizes::Common(1, samples), stco: vec![0], stss, ..quay_track(1) }
}

/// Edits at rate 1.0: duration and media time.
pub fn edits(list: &[(u32, i32)]) -> Option<Vec<(u32, i32, u32)>> {
    Some(list.iter().map(|(duration, media)| (*duration, *media, 65536)).collect())
}

/// Numbers of samples, each with its sync samples, and the rule of the quay film profile that they break: the fifth, or 0 for none.
pub fn sync_groups() -> Vec<(u32, Vec<u32>, u64)> {
    vec![
        (250, vec![1], 0),
        (251, vec![1], 5),
        (251, vec![1, 2], 0),
        (252, vec![1, 2], 5),
        (500, vec![1, 251], 0),
        (500, vec![1, 252], 5),
        (501, vec![1, 251], 5),
        (501, vec![1, 251, 501], 0),
        (260, vec![1, 2, 252], 0),
        (260, vec![1, 2, 253], 5),
        (4, vec![], 5),
        (4, vec![2, 3, 4], 5),
        (1, vec![1], 0),
    ]
}

/// Widths and heights that a record of tvsz says of W, whose picture is 320 x 240, and the place at fault of that one record, 0 for yes.
pub const PICTURE_CLAIMS: [(u32, u32, u64); 9] = [
    (320, 240, 0),
    (321, 240, 0),
    (320, 241, 0),
    (65535, 65535, 0),
    (319, 240, 1),
    (320, 239, 1),
    (321, 239, 1),
    (65535, 0, 1),
    (319, 65535, 1),
];

/// A movie of those tracks with W's time scale.
pub fn movie(tracks: &[Track]) -> Movie {
    Movie { tracks: tracks.to_vec(), ..w_movie() }
}

/// A sound track of nine samples in three chunks at those offsets, with an edit that shows nothing: it differs from W's in each number of the track list.
pub fn sound_track(id: u32, stco: [u32; 3]) -> Track {
    Track {
        id,
        subtype: *b"soun",
        scale: 44100,
        duration: 9,
        descriptions: vec![description(b"twos", 16)],
        stts: vec![(9, 1)],
        stsc: vec![(1, 3, 1)],
        stsz: Sizes::Common(4, 9),
        stco: stco.to_vec(),
        edits: edits(&[(10, -1)]),
        ..w_track()
    }
}

/// A film of W's track with the moov last, in the 64-bit form, and what is skipped around it: offsets count from the file's beginning.
pub fn moov_last() -> Node {
    let body: Vec<u8> = (8..308).map(|i| u8::try_from(i % 251).unwrap()).collect();
    let track = w_with(|track| track.stco = vec![8, 200]);
    let moov = Node { size: Size::Wide, ..movie(&[track]).moov() };
    file(vec![atom("mdat", &body), atom("free", &[7; 5]), moov, atom("skip", &[])])
}

/// A film of that track spoiled in one place, for each of refusals 2 to 13 and 19 in the order in which they are judged, but for 11, which is not the
/// default: the number, a name and the film.
pub fn spoiled(track: &Track, film_of: impl Fn(Track) -> Node) -> Vec<(u32, &'static str, Node)> {
    let bare = |change: &dyn Fn(&mut Track)| {
        let mut track = track.clone();
        change(&mut track);
        film_of(track)
    };
    let broken = |change: &dyn Fn(&mut Node)| {
        let mut film = bare(&|_| ());
        change(&mut film);
        film
    };
    vec![
        (2, "three-bytes-over", broken(&|film| film.at("moov trak").tail = vec![0; 3])),
        (3, "empty-file", file(vec![])),
        (3, "no-stco", broken(&|film| film.remove("moov trak mdia minf stbl stco"))),
        (4, "stsd-version-1", broken(&|film| film.at("moov trak mdia minf stbl stsd").body[0] = 1)),
        (5, "tkhd-of-91-bytes", broken(&|film| film.resize("moov trak tkhd", 83))),
        (6, "65-descriptions", bare(&|track| track.descriptions = vec![picture(1, 1); 65])),
        (7, "id-twice", broken(&|film| film.double("moov trak"))),
        (8, "movie-scale-0", broken(&|film| film.set("moov mvhd", 20, 0))),
        (9, "stts-of-5-samples", bare(&|track| track.stts = vec![(5, 24)])),
        (10, "total-2-32", bare(&|track| track.stts = vec![(4, 1 << 30)])),
        (19, "reference-to-another-file", bare(&|track| track.references = vec![reference(b"alis", 0, &[7; 4])])),
        (12, "second-chunk-past-the-end", bare(&|track| track.stco[1] = 4027)),
        (13, "w-edits-60-empty-and-60-from-61", bare(&|track| track.edits = edits(&[(60, -1), (60, 61)]))),
    ]
}

/// A film as it is stored, with its questions and the lines that answer them.
pub struct Kept<'a> {
    pub name: &'a str,
    pub number: u32,
    pub film: &'a [u8],
    pub asks: Vec<u8>,
    pub lines: Vec<String>,
    pub said: &'a [String],
}

impl Kept<'_> {
    /// Writes the film and its questions to the folder and prints its lines; the names are those that the program takes as arguments. The reference
    /// must agree with the number and with the lines that the film's maker says by hand.
    pub fn store(&self, folder: &str) -> String {
        let name = self.name;
        assert_eq!(refusal(self.film), self.number, "{name}");
        for said in self.said {
            assert!(self.lines.contains(said), "{name}: not among the lines: {said}");
        }
        std::fs::write(format!("{folder}/{name}.mov"), self.film).unwrap();
        std::fs::write(format!("{folder}/{name}.ask"), &self.asks).unwrap();
        println!("{name}.mov");
        for line in &self.lines {
            println!("  {line}");
        }
        format!("{name}.mov\n{name}.ask\n")
    }
}
