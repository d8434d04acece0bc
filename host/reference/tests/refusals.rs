//! A few films for each refusal of a file.
use reference::film::*;
use reference::movie::atoms::{Leaf, MovieLeaves, Place};
use reference::movie::refusals::{refused_1, refused_6};
use reference::movie::{refusal, strict_refusal};

const STBL: &str = "moov trak mdia minf stbl";
const DINF: &str = "moov trak mdia minf dinf";
const DREF: &str = "moov trak mdia minf dinf dref";

/// The number with which a film is refused where strict reading is asked for. Only 11 is another by default.
fn refused(film: &[u8]) -> u32 {
    let number = strict_refusal(film);
    assert!(number == 11 || refusal(film) == number);
    number
}

/// The number with which W is refused after a change to its atoms.
fn changed(change: impl Fn(&mut Node)) -> u32 {
    let mut film = w();
    change(&mut film);
    refused(&film.bytes())
}

/// The number with which W is refused after a change to its track's tables.
fn track(change: impl Fn(&mut Track)) -> u32 {
    let mut movie = w_movie();
    change(&mut movie.tracks[0]);
    refused(&movie.file_of(4096).bytes())
}

#[test]
fn number_1() {
    assert_eq!(refused_1(2_147_483_647), None);
    assert!(refused_1(2_147_483_648).is_some());
}

#[test]
fn number_2() {
    assert_eq!(changed(|film| film.tail = vec![0; 7]), 2);
    assert_eq!(changed(|film| film.at("moov").size = Size::Says(7)), 2);
    assert_eq!(changed(|film| film.at("moov trak").tail = vec![0]), 2);
    assert_eq!(changed(|film| film.at("moov").tail = vec![0; 8]), 2);
    assert_eq!(changed(|film| film.at("mdat").size = Size::WideSays(u64::MAX)), 2);
    assert_eq!(changed(|film| film.push("", raw(&[0, 0, 0, 1, b'f', b'r', b'e', b'e', 0, 0, 0, 0, 0, 0, 0]))), 2);
    assert_eq!(changed(|film| film.at("mdat").size = Size::Says(0)), 0);
    assert_eq!(changed(|film| film.at("moov").size = Size::Wide), 0);
    assert_eq!(changed(|film| film.tail = vec![0; 8]), 0);
    assert_eq!(changed(|film| film.tail = vec![0, 0, 0, 0, b'f', b'r', b'e', b'e', 1, 2, 3]), 0);
    assert_eq!(changed(|film| film.push("moov", atom("udta", &[1, 2, 3]))), 0);
}

#[test]
fn number_3() {
    for path in [
        "moov mvhd",
        "moov trak tkhd",
        "moov trak mdia",
        "moov trak mdia minf",
        "moov trak mdia minf stbl stsz",
        DINF,
        DREF,
    ] {
        assert_eq!(changed(|film| film.remove(path)), 3);
        assert_eq!(changed(|film| film.double(path)), 3);
    }
    assert_eq!(changed(|film| film.double("moov")), 3);
    assert_eq!(changed(|film| film.insert_after("moov trak tkhd", container("edts", vec![]))), 3);
    assert_eq!(changed(|film| film.replace("moov", container("moov", vec![atom("cmov", &[1; 5])]))), 3);
    assert_eq!(changed(|film| film.remove("moov trak")), 0);
    // A second moov that is broken is refused 2, as a dinf that is.
    assert_eq!(changed(|film| film.at(DINF).tail = vec![0; 3]), 2);
    assert_eq!(changed(|film| film.push("", container("moov", vec![raw(&[0; 3])]))), 2);
}

#[test]
fn number_4() {
    assert_eq!(changed(|film| film.at("moov mvhd").body[0] = 1), 4);
    assert_eq!(changed(|film| film.at("moov trak mdia hdlr").body = vec![1]), 4);
    assert_eq!(changed(|film| film.at("moov trak mdia hdlr").body[1] = 1), 0);
    assert_eq!(changed(|film| film.at(DREF).body[0] = 1), 4);
}

#[test]
fn number_5() {
    for name in ["stsd", "stts", "stsc", "stsz", "stco"] {
        let path = format!("{STBL} {name}");
        for length in [0, 1, 7, 8, 9, 11] {
            assert_eq!(changed(|film| film.resize(&path, length)), 5);
        }
        let length = w().at(&path).body.len();
        assert_eq!(changed(|film| film.resize(&path, length - 1)), 5);
        assert_eq!(changed(|film| film.resize(&path, length + 1)), 5);
    }
    assert_eq!(changed(|film| film.resize("moov trak mdia hdlr", 23)), 5);
    assert_eq!(changed(|film| film.resize("moov trak mdia hdlr", 60)), 0);
    assert_eq!(changed(|film| film.insert_before("moov mvhd", atom("prfl", &[]))), 5);
    assert_eq!(changed(|film| film.insert_before("moov mvhd", atom("prfl", &[0]))), 5);
    assert_eq!(changed(|film| film.insert_before("moov mvhd", atom("prfl", &[1]))), 0);
    assert_eq!(changed(|film| film.insert_after("moov mvhd", atom("prfl", &[]))), 0);
    // A count that reaches the size only modulo 2^32.
    assert_eq!(changed(|film| film.set(&format!("{STBL} stco"), 12, 2 + (1 << 30))), 5);
}

#[test]
fn number_5_of_references() {
    let sized = |sizes: &[usize]| {
        let entry = |size: &usize| {
            let mut bytes = this_file();
            bytes.resize(*size, 9);
            bytes[..4].copy_from_slice(&u32::try_from(*size).unwrap().to_be_bytes());
            bytes
        };
        track(|track| track.references = sizes.iter().map(entry).collect())
    };
    assert_eq!(sized(&[12]), 0);
    assert_eq!(sized(&[13, 40]), 0);
    assert_eq!(sized(&[11]), 5);
    assert_eq!(sized(&[12, 11]), 5);
    assert_eq!(sized(&[8, 12]), 5);
    for length in [0, 7, 8, 19, 21] {
        assert_eq!(changed(|film| film.resize(DREF, length)), 5);
    }
    for count in [0, 2, u32::MAX] {
        assert_eq!(changed(|film| film.set(DREF, 12, count)), 5);
    }
    // Bytes after the last entry, as many as an entry has.
    assert_eq!(changed(|film| film.at(DREF).body.extend(this_file())), 5);
}

#[test]
fn number_6() {
    assert_eq!(track(|track| track.references = vec![this_file(); 65]), 6);
    assert_eq!(track(|track| track.references = vec![this_file(); 64]), 0);
    assert_eq!(track(|track| track.stsz = Sizes::Common(1, 1_048_577)), 6);
    assert_eq!(track(|track| track.descriptions = vec![picture(1, 1); 65]), 6);
    assert_eq!(track(|track| track.descriptions = vec![picture(1, 1); 64]), 0);
    assert_eq!(track(|track| track.edits = Some(vec![(1, -1, 65536); 257])), 6);
    assert_eq!(track(|track| track.edits = Some(vec![(1, -1, 65536); 256])), 0);
    assert_eq!(track(|track| track.profile = Some(vec![[0; 4]; 65])), 6);
    let mut movie = w_movie();
    movie.tracks = (1..=16).map(|id| Track { id, stts: vec![(4, 30)], stco: vec![0, 0], ..w_track() }).collect();
    assert_eq!(refusal(&movie.file().bytes()), 0);
    movie.tracks.push(Track { id: 17, ..w_track() });
    assert_eq!(refusal(&movie.file().bytes()), 6);
    // Chunks, without the rest of a file.
    let chunks = |n: u32| {
        let leaf = |node: Node| Leaf { place: Place { kind: node.kind, at: 0 }, body: node.body };
        let track = reference::movie::atoms::TrackLeaves {
            prfl: None,
            tkhd: leaf(tkhd(1)),
            elst: None,
            mdhd: leaf(mdhd(1, 1)),
            hdlr: leaf(hdlr(b"vide")),
            dref: leaf(dref(&[])),
            stsd: leaf(stsd(&[])),
            stts: leaf(stts(&[])),
            ctts: None,
            stsc: leaf(stsc(&[])),
            stsz: leaf(stsz(&Sizes::Common(1, 0))),
            chunk_offsets: leaf(stco(&vec![0; usize::try_from(n).unwrap()])),
            stss: None,
        };
        MovieLeaves { moov: Place { kind: *b"moov", at: 0 }, prfl: None, mvhd: leaf(mvhd(1, 1)), tracks: vec![track] }
    };
    assert_eq!(refused_6(&chunks(1_048_576)), None);
    assert!(refused_6(&chunks(1_048_577)).is_some());
}

#[test]
fn number_7() {
    assert_eq!(track(|track| track.id = 0), 7);
    assert_eq!(track(|track| track.id = u32::MAX), 0);
    assert_eq!(changed(|film| film.double("moov trak")), 7);
}

#[test]
fn number_8() {
    assert_eq!(changed(|film| film.set("moov mvhd", 20, 0)), 8);
    assert_eq!(track(|track| track.scale = 0), 8);
}

#[test]
fn number_9() {
    assert_eq!(track(|track| track.stts = vec![(3, 24), (0, 5), (1, 48)]), 9);
    assert_eq!(track(|track| track.stts = vec![(3, 24)]), 9);
    assert_eq!(track(|track| track.stts = vec![(5, 24)]), 9);
    // A total of 4 modulo 2^32.
    assert_eq!(track(|track| track.stts = vec![(u32::MAX, 0), (5, 24)]), 9);
    assert_eq!(track(|track| track.ctts = Some(vec![(4, 1)])), 0);
    assert_eq!(track(|track| track.ctts = Some(vec![])), 9);
    assert_eq!(track(|track| track.ctts = Some(vec![(4, 1), (0, 1)])), 9);
    assert_eq!(track(|track| track.stsc = vec![]), 9);
    assert_eq!(track(|track| track.stsc = vec![(2, 1, 1)]), 9);
    assert_eq!(track(|track| track.stsc = vec![(1, 3, 1), (1, 1, 1)]), 9);
    assert_eq!(track(|track| track.stsc = vec![(1, 3, 1), (2, 1, 1), (3, 1, 1)]), 9);
    assert_eq!(track(|track| track.stsc = vec![(1, 4, 1), (2, 0, 1)]), 9);
    assert_eq!(track(|track| track.stsc = vec![(1, 2, 1)]), 0);
    assert_eq!(track(|track| track.stsc = vec![(1, 2, 0)]), 9);
    assert_eq!(track(|track| track.stsc = vec![(1, 2, 2)]), 9);
    assert_eq!(track(|track| track.stsc = vec![(1, 1, 1)]), 9);
    assert_eq!(track(|track| track.stss = Some(vec![])), 0);
    assert_eq!(track(|track| track.stss = Some(vec![1, 4])), 0);
    assert_eq!(track(|track| track.stss = Some(vec![0, 4])), 9);
    assert_eq!(track(|track| track.stss = Some(vec![1, 5])), 9);
    assert_eq!(track(|track| track.stss = Some(vec![4, 4])), 9);
    assert_eq!(track(|track| track.stco = vec![]), 9);
}

/// W's track with no samples.
fn empty(track: &mut Track) {
    track.duration = 0;
    track.stts = vec![];
    track.stsc = vec![];
    track.stsz = Sizes::Common(5, 0);
    track.stco = vec![];
}

#[test]
fn number_9_without_samples() {
    assert_eq!(track(empty), 0);
    let then = |change: fn(&mut Track)| {
        track(|track| {
            empty(track);
            change(track);
        })
    };
    assert_eq!(then(|track| track.stsz = Sizes::Each(vec![])), 0);
    assert_eq!(then(|track| track.stsc = vec![(1, 1, 1)]), 9);
    assert_eq!(then(|track| track.stco = vec![0]), 9);
    assert_eq!(then(|track| track.ctts = Some(vec![])), 0);
    assert_eq!(then(|track| track.edits = Some(vec![(1, -1, 65536)])), 0);
    assert_eq!(then(|track| track.edits = Some(vec![(1, 0, 65536)])), 13);
}

#[test]
fn number_10() {
    assert_eq!(track(|track| (track.stts, track.duration) = (vec![(4, 1 << 30)], 0)), 10);
    assert_eq!(track(|track| (track.stts, track.duration) = (vec![(3, 1 << 30), (1, (1 << 30) - 1)], u32::MAX)), 0);
    // Before 13: the rates are wrong too.
    assert_eq!(track(|track| track.edits = Some(vec![(u32::MAX, -1, 1), (1, -1, 1)])), 10);
    assert_eq!(track(|track| track.edits = Some(vec![(u32::MAX - 1, -1, 65536), (1, -1, 65536)])), 0);
}

#[test]
fn number_11() {
    assert_eq!(track(|track| track.duration = 119), 11);
    assert_eq!(track(|track| track.stts = vec![(4, 24)]), 11);
    let by_default = |change: fn(&mut Track)| {
        let mut movie = w_movie();
        change(&mut movie.tracks[0]);
        refusal(&movie.file_of(4096).bytes())
    };
    assert_eq!(by_default(|track| track.duration = 119), 0);
    assert_eq!(by_default(|track| (track.duration, track.stco[1]) = (119, 9999)), 12);
    assert_eq!(by_default(|track| (track.duration, track.edits) = (119, Some(vec![]))), 13);
}

#[test]
fn number_12() {
    let nothing = |offset| track(|track| (track.stsz, track.stco) = (Sizes::Each(vec![0; 4]), vec![0, offset]));
    assert_eq!(nothing(4096), 0);
    assert_eq!(nothing(4097), 12);
    assert_eq!(track(|track| track.stco = vec![u32::MAX, 900]), 12);
    assert_eq!(track(|track| track.stsz = Sizes::Each(vec![100, u32::MAX, u32::MAX, 2])), 12);
    assert_eq!(track(|track| track.stco = vec![0, 0]), 0);
}

#[test]
fn number_13() {
    let edits = |list: &[(u32, i32, u32)]| track(|track| track.edits = Some(list.to_vec()));
    assert_eq!(edits(&[]), 13);
    assert_eq!(edits(&[(0, 0, 65536)]), 13);
    assert_eq!(edits(&[(1, 0, 65535)]), 13);
    assert_eq!(edits(&[(1, -2, 65536)]), 13);
    assert_eq!(edits(&[(120, 0, 65536)]), 0);
    assert_eq!(edits(&[(121, 0, 65536)]), 13);
    assert_eq!(edits(&[(1, 119, 65536), (4_000_000_000, -1, 65536)]), 0);
    assert_eq!(edits(&[(1, 120, 65536)]), 13);
    assert_eq!(edits(&[(1, i32::MAX, 65536)]), 13);
}

#[test]
fn number_19() {
    let names = |index: u16, flags: &[u32]| {
        track(|track| {
            track.descriptions = vec![referring(picture(1, 1), index)];
            track.references = flags.iter().map(|flags| reference(b"url ", *flags, &[5; 3])).collect();
        })
    };
    assert_eq!(names(1, &[1]), 0);
    assert_eq!(names(0, &[1]), 19);
    assert_eq!(names(2, &[1]), 19);
    assert_eq!(names(2, &[0, 1]), 0);
    assert_eq!(names(1, &[0, 1]), 19);
    assert_eq!(names(257, &[1]), 19);
    assert_eq!(names(1, &[]), 19);
    // Only the lowest bit of the flags counts; the entry's version does not.
    assert_eq!(names(1, &[0x00ff_fffe]), 19);
    assert_eq!(names(1, &[0xff00_0001]), 0);
    assert_eq!(names(1, &[0x0100_0100]), 19);
    // A description that no chunk uses; none at all.
    assert_eq!(track(|track| track.descriptions.push(referring(picture(1, 1), 2))), 19);
    assert_eq!(
        track(|track| {
            empty(track);
            (track.descriptions, track.references) = (vec![], vec![]);
        }),
        0
    );
}

#[test]
fn lower_numbers_come_first() {
    // 9 in the last track, 8 in the first; 10 in the first, 9 in the last.
    let two = |first: fn(&mut Track), last: fn(&mut Track)| {
        let mut movie = w_movie();
        movie.tracks.push(Track { id: 2, ..w_track() });
        first(&mut movie.tracks[0]);
        last(&mut movie.tracks[1]);
        refused(&movie.file_of(4096).bytes())
    };
    assert_eq!(two(|_| (), |_| ()), 0);
    assert_eq!(two(|track| track.scale = 0, |track| track.stts = vec![]), 8);
    assert_eq!(two(|track| track.stts = vec![(4, 1 << 30)], |track| track.stts = vec![]), 9);
    assert_eq!(two(|track| track.stco = vec![9999, 0], |track| track.duration = 7), 11);
    assert_eq!(two(|track| track.edits = Some(vec![]), |track| track.stco = vec![9999, 0]), 12);
    // 19 comes after 11 and before 12.
    assert_eq!(two(|track| track.stco = vec![9999, 0], |track| track.references = vec![]), 19);
    assert_eq!(two(|track| track.edits = Some(vec![]), |track| track.references = vec![]), 19);
    assert_eq!(two(|track| track.references = vec![], |track| track.duration = 7), 11);
}

#[test]
fn damaged_films_have_an_answer() {
    // Bytes and numbers of W's moov changed at random, most often to values that matter: no film stops the reference.
    let whole = w().bytes();
    let mut seen = [0; 20];
    let mut state: u64 = 1;
    let mut random = |below: usize| {
        state = state.wrapping_mul(6_364_136_223_846_793_005).wrapping_add(1_442_695_040_888_963_407);
        usize::try_from(state >> 33).unwrap() % below
    };
    for _ in 0..40_000 {
        let mut film = whole.clone();
        for _ in 0..1 + random(2) {
            let values = [0, 1, 2, 3, 4, 5, 8, 16, 24, 120, 255];
            let (at, value) = (random(560), values[random(values.len())]);
            if random(2) == 0 {
                film[at] = value;
            } else {
                film[at..at + 4].copy_from_slice(&u32::from(value).to_be_bytes());
            }
        }
        seen[usize::try_from(refused(&film)).unwrap()] += 1;
    }
    // W has few entries and no edits, so that 6 and 13 have films of their own above.
    for number in [0, 2, 3, 4, 5, 7, 8, 9, 10, 11, 12, 19] {
        assert!(seen[number] > 0, "{number} in {seen:?}");
    }
}
