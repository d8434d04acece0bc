//! Each refusal of a file says where it applies: a film and its words for each clause.
use reference::film::*;
use reference::maker::{self, Random};
use reference::movie::{explain, explain_strictly, refusal, strict_refusal};
use std::collections::BTreeSet;

const STBL: &str = "moov trak mdia minf stbl";

/// Where the first atom of that type begins; W has one of each, and nothing in it looks like one.
fn byte(film: &[u8], kind: &str) -> usize {
    film.windows(4).position(|four| four == kind.as_bytes()).unwrap() - 4
}

/// The film is refused with that number and those words, in which "stts@" stands for "stts at byte" and its place.
#[track_caller]
fn says(film: &[u8], number: u32, words: &str) {
    let mut expected = String::new();
    for part in words.split_inclusive('@') {
        match part.strip_suffix('@') {
            Some(before) => {
                let place = byte(film, &before[before.len() - 4..]);
                expected += &format!("{before} at byte {place}");
            }
            None => expected += part,
        }
    }
    assert_eq!(explain_strictly(film), Some((number, expected)));
    assert_eq!(strict_refusal(film), number);
    assert!(number == 11 || explain(film) == explain_strictly(film));
}

/// W after a change to its atoms.
#[track_caller]
fn changed(change: impl Fn(&mut Node), number: u32, words: &str) {
    let mut film = w();
    change(&mut film);
    says(&film.bytes(), number, words);
}

/// W after a change to its track's tables; the words are those after the track.
#[track_caller]
fn track(change: impl Fn(&mut Track), number: u32, words: &str) {
    let mut movie = w_movie();
    change(&mut movie.tracks[0]);
    says(&movie.file_of(4096).bytes(), number, &format!("track 1 (ID 1), {words}"));
}

#[test]
fn accepted_films_have_no_explanation() {
    assert_eq!(explain(&w().bytes()), None);
}

#[test]
fn number_1() {
    let words = "the file has at least 2147483648 bytes, and may have 2147483647";
    assert_eq!(reference::movie::refusals::refused_1(2_147_483_648).as_deref(), Some(words));
}

#[test]
fn number_2() {
    changed(|film| film.tail = vec![0; 7], 2, "the file has 7 bytes left at byte 4096, and an atom has at least 8");
    changed(|film| film.at("moov").size = Size::Says(7), 2, "moov@ says 7 bytes, and must say at least 8");
    changed(|film| film.at("mdat").size = Size::WideSays(15), 2, "mdat@ says 15 bytes, and must say at least 16");
    changed(|film| film.at(STBL).tail = vec![0], 2, "stbl@ has 1 byte left at byte 524, and an atom has at least 8");
    changed(
        |film| film.at("moov").tail = vec![0; 8],
        2,
        "0x00000000 at byte 524 says 0 bytes, and must say at least 8",
    );
    let wide = [0, 0, 0, 1, b'f', b'r', b'e', b'e', 0, 0, 0, 0, 0, 0, 0];
    let words = "free@ has a 64-bit size and so at least 16 bytes, the file ends after 15";
    changed(|film| film.push("", raw(&wide)), 2, words);
    let words = "tkhd@ says 93 bytes, trak@ ends after 92";
    changed(
        |film| film.replace("moov trak", container("trak", vec![Node { size: Size::Says(93), ..tkhd(1) }])),
        2,
        words,
    );
}

#[test]
fn a_film_cut_short() {
    let ftyp = atom("ftyp", &[0; 20]);
    let film = file(vec![ftyp, atom("mdat", &[7; 738_515]), w_movie().moov()]).bytes();
    says(&film[..60_000], 2, "mdat at byte 28 says 738523 bytes, the file ends after 59972");
}

#[test]
fn files_that_are_no_movies() {
    says(&[], 3, "this is no QuickTime movie: the file is empty");
    let words = "this is no QuickTime movie: moov is absent from the file";
    says(&[0; 64], 3, words);
    let words =
        "this is no QuickTime movie; read as one, 0x0D0A1A0A at byte 0 says 2303741511 bytes, the file ends after 12";
    says(b"\x89PNG\r\n\x1a\n\0\0\0\x0d", 2, words);
    let words =
        "this is no QuickTime movie; read as one, the file has 5 bytes left at byte 0, and an atom has at least 8";
    says(b"Hello", 2, words);
    // One without its moov may be the beginning of a movie.
    says(&atom("mdat", &[7; 5]).bytes(), 3, "moov is absent from the file");
}

#[test]
fn number_3() {
    changed(|film| film.double("moov"), 3, "moov occurs 2 times in the file, and may occur once");
    changed(|film| film.remove("moov mvhd"), 3, "mvhd is absent from moov@");
    let compressed = container("moov", vec![atom("cmov", &[1; 5])]);
    let words = "mvhd is absent from moov@; cmov@ is there, and is not read";
    changed(|film| film.replace("moov", compressed.clone()), 3, words);
    changed(|film| film.remove("moov trak tkhd"), 3, "track 1: tkhd is absent from trak@");
    let edts = |film: &mut Node| film.insert_after("moov trak tkhd", container("edts", vec![]));
    changed(edts, 3, "track 1 (ID 1): elst is absent from edts@");
    let twice = |film: &mut Node| {
        edts(film);
        edts(film);
    };
    changed(twice, 3, "track 1 (ID 1): edts occurs 2 times in trak@, and may occur once");
    changed(
        |film| film.double("moov trak mdia hdlr"),
        3,
        "track 1 (ID 1): hdlr occurs 2 times in mdia@, and may occur once",
    );
    changed(|film| film.remove(STBL), 3, "track 1 (ID 1): stbl is absent from minf@");
    let dinf = "moov trak mdia minf dinf";
    changed(|film| film.remove(dinf), 3, "track 1 (ID 1): dinf is absent from minf@");
    changed(|film| film.remove(&format!("{dinf} dref")), 3, "track 1 (ID 1): dref is absent from dinf@");
    let wide = |film: &mut Node| film.at(&format!("{STBL} stco")).kind = *b"co64";
    changed(wide, 3, "track 1 (ID 1): stco is absent from stbl@; co64@ is there, and is not read");
    let stss = |film: &mut Node| (0..3).for_each(|_| film.push(STBL, stss(&[])));
    changed(stss, 3, "track 1 (ID 1): stss occurs 3 times in stbl@, and may occur once");
}

#[test]
fn number_4() {
    changed(|film| film.at("moov mvhd").body[0] = 1, 4, "mvhd@: has version 1, and must have 0");
    // The ID of such a tkhd is elsewhere.
    changed(|film| film.at("moov trak tkhd").body[0] = 1, 4, "track 1, tkhd@: has version 1, and must have 0");
    let hdlr = |film: &mut Node| film.at("moov trak mdia hdlr").body = vec![255];
    changed(hdlr, 4, "track 1 (ID 1), hdlr@: has version 255, and must have 0");
}

#[test]
fn number_5() {
    let prfl = |body: &'static [u8]| move |film: &mut Node| film.insert_before("moov mvhd", atom("prfl", body));
    changed(prfl(&[]), 5, "prfl@: has 8 bytes, and must have at least 16");
    changed(prfl(&[0; 9]), 5, "prfl@: has 17 bytes, and must have 16 for 0 entries");
    changed(|film| film.resize("moov mvhd", 101), 5, "mvhd@: has 109 bytes, and must have 108");
    changed(|film| film.resize("moov trak tkhd", 83), 5, "track 1, tkhd@: has 91 bytes, and must have 92");
    let resized = |path: &str, length: usize, words: &str| {
        changed(|film| film.resize(path, length), 5, &format!("track 1 (ID 1), {words}"));
    };
    resized("moov trak mdia mdhd", 0, "mdhd@: has 8 bytes, and must have 32");
    resized("moov trak mdia hdlr", 23, "hdlr@: has 31 bytes, and must have at least 32");
    resized(&format!("{STBL} stts"), 7, "stts@: has 15 bytes, and must have at least 16");
    resized(&format!("{STBL} stts"), 25, "stts@: has 33 bytes, and must have 32 for 2 entries");
    resized(&format!("{STBL} stsz"), 11, "stsz@: has 19 bytes, and must have at least 20");
    resized(&format!("{STBL} stsz"), 29, "stsz@: has 37 bytes, and must have 36 for 4 sizes");
    let words = "track 1 (ID 1), stsz@: has 36 bytes, and must have 20 with a common size, which is 9";
    changed(|film| film.set(&format!("{STBL} stsz"), 12, 9), 5, words);
}

#[test]
fn number_5_of_descriptions() {
    let stsd = format!("{STBL} stsd");
    let said = |change: &dyn Fn(&mut Node), words: &str| {
        changed(|film| change(film.at(&stsd)), 5, &format!("track 1 (ID 1), stsd@: {words}"));
    };
    said(&|stsd| stsd.body.truncate(7), "has 15 bytes, and must have at least 16");
    said(&|stsd| stsd.set("", 12, 2), "states 2 descriptions, and has 0 bytes left for description 2");
    said(&|stsd| stsd.set("", 16, 15), "description 1 says 15 bytes, and must say at least 16");
    said(&|stsd| stsd.set("", 16, 37), "description 1 says 37 bytes, the stsd ends after 36");
    said(&|stsd| stsd.set("", 12, 0), "has 52 bytes, and its 0 descriptions end after 16");
    let short = |track: &mut Track| track.descriptions = vec![picture(1, 1), description(b"jpeg", 35)];
    let words = "stsd@: description 2 has 35 bytes, and must have at least 36 in a track of subtype vide";
    track(short, 5, words);
}

#[test]
fn number_5_of_references() {
    let said = |change: &dyn Fn(&mut Node), words: &str| {
        let dref = "moov trak mdia minf dinf dref";
        changed(|film| change(film.at(dref)), 5, &format!("track 1 (ID 1), dref@: {words}"));
    };
    said(&|dref| dref.set("", 12, 2), "states 2 references, and has 0 bytes left for reference 2");
    said(&|dref| dref.set("", 16, 11), "reference 1 says 11 bytes, and must say at least 12");
    said(&|dref| dref.set("", 16, 13), "reference 1 says 13 bytes, the dref ends after 12");
    said(&|dref| dref.body.extend([0; 5]), "has 33 bytes, and its 1 references end after 28");
}

#[test]
fn number_6() {
    let over = |change: fn(&mut Track), words| track(change, 6, words);
    over(|track| track.stsz = Sizes::Common(1, 1_048_577), "stsz@: states 1048577 samples, and 1048576 are the most");
    over(|track| track.stco = vec![0; 1_048_577], "stco@: states 1048577 chunks, and 1048576 are the most");
    over(|track| track.edits = Some(vec![(1, -1, 65536); 257]), "elst@: states 257 edits, and 256 are the most");
    over(|track| track.descriptions = vec![picture(1, 1); 65], "stsd@: states 65 descriptions, and 64 are the most");
    over(|track| track.references = vec![this_file(); 65], "dref@: states 65 data references, and 64 are the most");
    over(|track| track.profile = Some(vec![[0; 4]; 66]), "prfl@: states 66 records, and 64 are the most");
    let movie = Movie { profile: Some(vec![[0; 4]; 65]), ..w_movie() };
    says(&movie.file_of(4096).bytes(), 6, "prfl@: states 65 records, and 64 are the most");
    let movie = Movie { tracks: vec![w_track(); 17], ..w_movie() };
    says(&movie.file().bytes(), 6, "moov@: has 17 tracks, and 16 are the most");
}

/// W with a second track, after a change to it; the words are those after the track, whose second tkhd, stts .. are meant.
#[track_caller]
fn second(change: impl Fn(&mut Track), number: u32, words: &str) {
    let mut movie = w_movie();
    movie.tracks.push(Track { id: 7, ..w_track() });
    change(&mut movie.tracks[1]);
    let film = movie.file_of(4096).bytes();
    let (kind, rest) = words.split_once('@').unwrap();
    let first = byte(&film, kind) + 8;
    let place = first + byte(&film[first..], kind);
    let id = movie.tracks[1].id;
    says(&film, number, &format!("track 2 (ID {id}), {kind} at byte {place}{rest}"));
}

#[test]
fn number_7() {
    second(|track| track.id = 0, 7, "tkhd@: the track ID is 0, and must not be");
    second(|track| track.id = 1, 7, "tkhd@: the track ID is 1, as that of track 1 is");
}

#[test]
fn number_8() {
    changed(|film| film.set("moov mvhd", 20, 0), 8, "mvhd@: the time scale is 0, and must not be");
    second(|track| track.scale = 0, 8, "mdhd@: the time scale is 0, and must not be");
}

#[test]
fn number_9_of_counts() {
    second(|track| track.stts = vec![(5, 24)], 9, "stts@: counts 5 samples, stsz 4");
    track(|track| track.stts = vec![(3, 24), (0, 5), (1, 48)], 9, "stts@: entry 2 counts 0 samples");
    track(|track| track.stts = vec![(1, 24)], 9, "stts@: counts 1 sample, stsz 4");
    track(|track| track.stts = vec![(u32::MAX, 0), (5, 24)], 9, "stts@: counts 4294967300 samples, stsz 4");
    track(|track| track.ctts = Some(vec![(4, 1), (0, 1)]), 9, "ctts@: entry 2 counts 0 samples");
    track(|track| track.ctts = Some(vec![]), 9, "ctts@: counts 0 samples, stsz 4");
}

#[test]
fn number_9_of_chunks() {
    let stsc = |list: &[(u32, u32, u32)], words: &str| track(|track| track.stsc = list.to_vec(), 9, words);
    track(|track| track.stco = vec![], 9, "stco@: counts 0 chunks, stsz 4 samples");
    let empty = |track: &mut Track| (track.stts, track.stsz, track.stco) = (vec![], Sizes::Common(5, 0), vec![]);
    track(empty, 9, "stsc@: has 2 entries, stco 0 chunks");
    stsc(&[], "stsc@: has 0 entries, stco 2 chunks");
    stsc(&[(2, 1, 1)], "stsc@: entry 1 begins at chunk 2, and must at chunk 1");
    stsc(&[(1, 3, 1), (1, 1, 1)], "stsc@: entry 2 begins at chunk 1, entry 1 at chunk 1");
    stsc(&[(1, 3, 1), (2, 1, 1), (3, 1, 1)], "stsc@: entry 3 begins at chunk 3, stco has 2 chunks");
    stsc(&[(1, 4, 1), (2, 0, 1)], "stsc@: entry 2 deals 0 samples to each chunk");
    stsc(&[(1, 2, 0)], "stsc@: entry 1 names description 0, stsd has 1 description");
    stsc(&[(1, 3, 1), (2, 1, 2)], "stsc@: entry 2 names description 2, stsd has 1 description");
    stsc(&[(1, 1, 1)], "stsc@: deals 2 samples to 2 chunks, stsz counts 4");
}

#[test]
fn number_9_of_syncs() {
    let stss = |list: &[u32], words: &str| track(|track| track.stss = Some(list.to_vec()), 9, words);
    stss(&[1, 4, 4], "stss@: entry 3 is sample 4, entry 2 sample 4");
    stss(&[0, 4], "stss@: entry 1 is sample 0, and samples count from 1");
    stss(&[1, 5], "stss@: entry 2 is sample 5, stsz counts 4");
}

#[test]
fn number_10() {
    let words = "stts@: the durations of its samples total 4294967296, and 4294967295 is the most";
    track(|track| track.stts = vec![(4, 1 << 30)], 10, words);
    let words = "elst@: the durations of its edits total 4294967296, and 4294967295 is the most";
    track(|track| track.edits = Some(vec![(u32::MAX, -1, 1), (1, -1, 1)]), 10, words);
}

#[test]
fn number_11() {
    second(|track| track.duration = 121, 11, "mdhd@: has duration 121, the samples of stts total 120");
    let mut movie = w_movie();
    movie.tracks[0].duration = 121;
    assert_eq!(explain(&movie.file_of(4096).bytes()), None);
}

#[test]
fn number_12() {
    let words = "stco@: chunk 2 begins at 4027, has 70 bytes and ends at 4097, the file at 4096";
    second(|track| track.stco[1] = 4027, 12, words);
}

#[test]
fn number_13() {
    let edits = |list: &[(u32, i32, u32)], words: &str| track(|track| track.edits = Some(list.to_vec()), 13, words);
    edits(&[], "elst@: has 0 entries, and must have at least 1");
    edits(&[(1, 0, 65536), (0, 0, 65536)], "elst@: entry 2 has duration 0");
    edits(&[(1, 0, 65535)], "elst@: entry 1 has rate 65535, and must have 65536 (1.0)");
    edits(&[(1, -2, 65536)], "elst@: entry 1 has media time -2, and must have at least -1");
    let words = "elst@: entry 2 has media time 61 and duration 60 and reaches media time 120, the samples end at 120";
    edits(&[(60, -1, 65536), (60, 61, 65536)], words);
}

#[test]
fn number_19() {
    let names = |index: u16, flags: u32, kind: &[u8; 4], words: &str| {
        let elsewhere = |track: &mut Track| {
            track.descriptions = vec![picture(1, 1), referring(picture(1, 1), index)];
            track.references = vec![this_file(), reference(kind, flags, &[])];
        };
        second(elsewhere, 19, &format!("stsd@: description 2 names data reference {words}"));
    };
    names(0, 1, b"alis", "0, and references count from 1");
    names(3, 1, b"alis", "3, dref has 2 references");
    names(2, 0, b"alis", "2, of type 'alis', which is another file");
    names(2, 0, b"url ", "2, of type 'url ', which is another file");
    names(2, 2, b"url\0", "2, of type 0x75726C00, which is another file");
    let words = "stsd@: description 1 names data reference 1, dref has 0 references";
    second(|track| track.references = vec![], 19, words);
}

/// The atoms that the words name with a place.
fn named(words: &str) -> Vec<(&str, usize)> {
    let all: Vec<&str> = words.split(' ').collect();
    let number = |text: &str| text.trim_end_matches([',', ':', ';']).parse().unwrap();
    let places = all.windows(4).filter(|four| four[1..3] == ["at", "byte"] && four[0] != "left");
    places.map(|four| (four[0], number(four[3]))).collect()
}

/// The type as it is named.
fn kind(film: &[u8], at: usize) -> String {
    let kind = &film[at + 4..at + 8];
    if kind.iter().all(u8::is_ascii_graphic) {
        return String::from_utf8(kind.to_vec()).unwrap();
    }
    format!("0x{:08X}", u32::from_be_bytes(kind.try_into().unwrap()))
}

#[test]
fn atoms_are_where_the_words_say() {
    let mut met = BTreeSet::new();
    for index in 0..1500 {
        let film = maker::film(&mut Random::of(5, index));
        assert_eq!(explain(&film).map_or(0, |refused| refused.0), refusal(&film), "film {index}");
        let explained = explain_strictly(&film);
        assert_eq!(explained.as_ref().map_or(0, |refused| refused.0), strict_refusal(&film), "film {index}");
        let Some((number, words)) = explained else { continue };
        for (name, at) in named(&words) {
            assert_eq!(name, kind(&film, at), "film {index}: {words}");
        }
        // From 4 on there is always an atom.
        assert!(number < 4 || !named(&words).is_empty(), "{words}");
        assert!(!words.contains(char::is_control));
        met.insert(number);
    }
    assert_eq!(met, (2..=13).chain([19]).collect());
}

#[test]
fn what_takes_too_much_memory_is_not_explained() {
    // Sixteen tracks of a million samples in one chunk each, all in a few thousand bytes; only that the durations differ is wrong.
    let many = |id| Track {
        id,
        stts: vec![(1_048_576, 1)],
        stsc: vec![(1, 1_048_576, 1)],
        stsz: Sizes::Common(1, 1_048_576),
        stco: vec![0],
        ..w_track()
    };
    let movie = Movie { tracks: (1..=16).map(many).collect(), ..w_movie() };
    assert_eq!(explain_strictly(&movie.file().bytes()), None);
    // Atoms of 8 bytes, and a great moov.
    let atoms = |n: usize| atom("free", &[]).bytes().repeat(n);
    says(&atoms(1000), 3, "moov is absent from the file");
    assert_eq!(explain(&atoms((1 << 22) + 1)), None);
    let mut moov = vec![0; 1 << 28];
    moov[..16].copy_from_slice(b"\x10\0\0\0moov\x0f\xff\xff\xf8free");
    says(&moov, 3, "mvhd is absent from moov@");
    moov.extend([0; 8]);
    moov[..12].copy_from_slice(b"\x10\0\0\x08moov\x10\0\0\0");
    assert_eq!(explain(&moov), None);
}
