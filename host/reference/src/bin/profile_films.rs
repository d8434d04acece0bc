//! The films of crates/profile_vectors and its lines, from the reference.
//!
//! Writes each film to the folder that is its first argument, and the names, one to a line, to the file that is its second. The lines go to standard
//! output. A case is a track with a profile and the place at fault that its maker says by hand, 0 for yes: the reference must agree with it.
use reference::film::*;
use reference::made::{edits, empty_track, spoiled, PICTURE_CLAIMS};
use reference::maker::claims::{FEATURES, UNIVERSAL};
use reference::movie::{profile_fault, refusal};

/// As many tracks as a film has at most, and the IDs that are asked: those of its tracks, 0 and more.
const TRACKS: usize = 8;
const IDS: u32 = 10;

/// As many bytes as a film has: the samples lie anywhere in it.
const LENGTH: usize = 16384;

type Records = Vec<[u32; 4]>;

struct Case {
    track: Track,
    records: Records,
    place: u64,
}

fn case(track: Track, records: &[[u32; 4]], place: u64) -> Case {
    Case { track, records: records.to_vec(), place }
}

/// A universal record.
fn says(code: &[u8; 4], value: u32) -> [u32; 4] {
    [7, UNIVERSAL, u32::from_be_bytes(*code), value]
}

fn names(code: &[u8; 4], format: &[u8; 4]) -> [u32; 4] {
    says(code, u32::from_be_bytes(*format))
}

fn of_subtype(subtype: &[u8; 4]) -> Track {
    Track { subtype: *subtype, ..w_track() }
}

/// A track with descriptions of those formats.
fn of_formats(subtype: &[u8; 4], formats: &[&[u8; 4]]) -> Track {
    let descriptions = formats.iter().map(|format| description(format, 36)).collect();
    Track { descriptions, ..of_subtype(subtype) }
}

/// "each universal record ... with code avvb, avab, mvbr, mabr or vfps must be at least the computed feature"
fn enough(subtype: &[u8; 4], code: &[u8; 4], value: u32) -> Vec<Case> {
    [(0, 1), (value - 1, 1), (value, 0), (value + 1, 0), (u32::MAX, 0)]
        .map(|(said, place)| case(of_subtype(subtype), &[says(code, said)], place))
        .into()
}

/// "tvsz at least in each half"
fn halves() -> Vec<Case> {
    PICTURE_CLAIMS.map(|(width, height, place)| case(w_track(), &[says(b"tvsz", width * 65536 + height)], place)).into()
}

/// "A record of the first six codes whose feature is refused 18 is at fault."
fn not_computed() -> Vec<Case> {
    let wrong: [(&[u8; 4], &[&[u8; 4]]); 3] =
        [(b"vide", &[b"avab", b"mabr"]), (b"soun", &[b"avvb", b"mvbr", b"vfps", b"tvsz"]), (b"text", &FEATURES)];
    let mut cases: Vec<Case> = Vec::new();
    for (subtype, codes) in wrong {
        cases.extend(codes.iter().map(|code| case(of_subtype(subtype), &[says(code, u32::MAX)], 1)));
    }
    cases.extend([b"avvb", b"mvbr", b"vfps", b"tvsz"].map(|code| case(empty_track(1), &[says(code, u32::MAX)], 1)));
    cases.push(case(Track { scale: u32::MAX, ..w_track() }, &[says(b"avvb", u32::MAX)], 1));
    cases
}

/// The averages are those of Ask 2.
fn edited() -> Vec<Case> {
    let of = |list| Track { edits: edits(list), ..w_track() };
    vec![
        case(of(&[(60, -1), (60, 24)]), &[says(b"avvb", 6000)], 0),
        case(of(&[(60, -1), (60, 24)]), &[says(b"avvb", 5999)], 1),
        case(of(&[(60, -1)]), &[says(b"avvb", u32::MAX)], 1),
        case(of(&[(60, -1)]), &[says(b"mvbr", 8800)], 0),
    ]
}

/// Two seconds of sound, the second of them louder: the average is not the highest rate.
fn two_seconds() -> Track {
    Track {
        subtype: *b"soun",
        scale: 4,
        duration: 8,
        descriptions: vec![description(b"twos", 16)],
        stts: vec![(8, 1)],
        stsc: vec![(1, 4, 1)],
        stsz: Sizes::Each(vec![10, 10, 10, 10, 30, 30, 30, 30]),
        ..w_track()
    }
}

/// Averages and highest rates that differ, and movie scales that are not the media's.
fn rates() -> Vec<Case> {
    let shown = |list| Track { edits: edits(list), ..two_seconds() };
    let finer = || Track { scale: 1200, duration: 240, stts: vec![(3, 48), (1, 96)], ..w_track() };
    let finer = || Track { edits: edits(&[(60, 48)]), ..finer() };
    vec![
        case(two_seconds(), &[says(b"avab", 640), says(b"mabr", 960)], 0),
        case(two_seconds(), &[says(b"avab", 639), says(b"mabr", 960)], 1),
        case(two_seconds(), &[says(b"avab", 640), says(b"mabr", 959)], 2),
        case(shown(&[(600, 0)]), &[says(b"avab", 320), says(b"mabr", 960)], 0),
        case(shown(&[(600, 0)]), &[says(b"avab", 319), says(b"mabr", 960)], 1),
        case(shown(&[(600, 0)]), &[says(b"avab", 320), says(b"mabr", 959)], 2),
        case(finer(), &[says(b"avvb", 6000)], 0),
        case(finer(), &[says(b"avvb", 5999)], 1),
    ]
}

/// "a numerator of 2^64 or more": 999 of the samples, all at one place, are covered by each entry.
fn numerators() -> Vec<Case> {
    let of = |entries| Track {
        scale: u32::MAX,
        duration: 4_294_967_000,
        stts: vec![(1000, 4_294_967)],
        stsc: vec![(1, 1, 1)],
        stsz: Sizes::Common(16000, 1000),
        stco: vec![100; 1000],
        edits: edits(&vec![(600, 0); entries]),
        ..w_track()
    };
    vec![
        case(of(33), &[says(b"avvb", 128_000_009)], 0),
        case(of(33), &[says(b"avvb", 128_000_008)], 1),
        case(of(34), &[says(b"avvb", u32::MAX)], 1),
    ]
}

/// Descriptions of several sizes, and the greatest width and the greatest height in two of them.
fn sized() -> Vec<Case> {
    let of = |subtype, sizes: [usize; 3]| {
        let descriptions = [b"jpeg", b"png ", b"rle "].into_iter().zip(sizes);
        let descriptions = descriptions.map(|(format, size)| description(format, size)).collect();
        Track { descriptions, ..of_subtype(subtype) }
    };
    let named = |code, formats: &[&[u8; 4]]| formats.iter().map(|format| names(code, format)).collect::<Records>();
    let tall = || Track { descriptions: vec![picture(320, 100), picture(10, 240)], ..w_track() };
    let size = |width: u32, height: u32| says(b"tvsz", width * 65536 + height);
    vec![
        case(of(b"soun", [16, 20, 35]), &named(b"afmt", &[b"jpeg", b"png ", b"rle "]), 0),
        case(of(b"soun", [35, 17, 16]), &named(b"afmt", &[b"jpeg", b"png "]), 1),
        case(of(b"soun", [35, 17, 16]), &named(b"afmt", &[b"rle ", b"png ", b"jpeg", b"twos"]), 4),
        case(of(b"vide", [86, 36, 40]), &named(b"vfmt", &[b"rle ", b"png ", b"jpeg"]), 0),
        case(of(b"vide", [36, 86, 37]), &named(b"vfmt", &[b"jpeg", b"png "]), 1),
        case(tall(), &[size(320, 240)], 0),
        case(tall(), &[size(319, 240)], 1),
        case(tall(), &[size(320, 239)], 1),
    ]
}

/// "Other records ... are passed over."
fn passed_over() -> Vec<Case> {
    let all = [b"avvb", b"avab", b"mvbr", b"mabr", b"vfps", b"tvsz", b"vfmt", b"afmt"];
    let of_part = |part| all.map(|code| [0, part, u32::from_be_bytes(*code), 0]);
    let mut cases: Vec<Case> =
        [0, 1, 0x2020_2021, 0x2000_0000, u32::MAX].map(|part| case(w_track(), &of_part(part), 0)).into();
    let others = [b"AVVB", b"avvc", b"VFMT", b"\0\0\0\x01", b"    "].map(|code| says(code, 0));
    cases.push(case(w_track(), &others, 0));
    cases
}

/// "the first record at fault by its place, from 1, in the stored profile", where records with code 0 have none.
fn places() -> Vec<Case> {
    let (good, bad, other) = (says(b"avvb", 8800), says(b"vfps", 0), [0, 1, u32::from_be_bytes(*b"avvb"), 0]);
    let none = [9, UNIVERSAL, 0, 0];
    vec![
        case(w_track(), &[good, other, bad, bad], 3),
        case(w_track(), &[none, good, none, bad], 2),
        case(w_track(), &[none, none], 0),
        case(w_track(), &[good, says(b"avvb", 8799)], 2),
        case(w_track(), &[vec![good; 63], vec![bad]].concat(), 64),
        case(w_track(), &[vec![none; 63], vec![bad]].concat(), 1),
        case(w_track(), &FEATURES.map(|code| says(code, u32::MAX)), 2),
    ]
}

/// The formats that a track has, what its format records name, and the place at fault.
type Formats<'a> = (&'a [&'a [u8; 4]], &'a [&'a [u8; 4]], u64);

/// In a track of pictures, of sound, and of another subtype, where they are passed over.
fn formats(list: &[Formats]) -> Vec<Case> {
    let mut cases = Vec::new();
    for (has, named, place) in list {
        let records = |code| named.iter().map(|format| names(code, format)).collect::<Records>();
        cases.push(case(of_formats(b"vide", has), &records(b"vfmt"), *place));
        cases.push(case(of_formats(b"soun", has), &records(b"afmt"), *place));
        cases.push(case(of_formats(b"soun", has), &records(b"vfmt"), 0));
        cases.push(case(of_formats(b"text", has), &[records(b"vfmt"), records(b"afmt")].concat(), 0));
    }
    cases
}

/// "exactly the formats in stsd, in any order, repeats allowed"
const SAME: &[Formats] = &[
    (&[b"jpeg"], &[b"jpeg"], 0),
    (&[b"jpeg", b"jpeg"], &[b"jpeg"], 0),
    (&[b"jpeg", b"png ", b"rle "], &[b"rle ", b"jpeg", b"png ", b"jpeg"], 0),
    (&[b"jpeg", b"png "], &[], 0),
];

const NOT_THERE: &[Formats] = &[
    (&[b"jpeg"], &[b"jpeg", b"jpeG"], 2),
    (&[b"jpeg"], &[b"jpeg", b"jpeg", b"\0\0\0\0"], 3),
    (&[b"jpeg"], &[b"png ", b"jpeg"], 1),
];

/// "a missing format is charged to the first vfmt or afmt record not passed over"
const MISSING: &[Formats] = &[
    (&[b"jpeg", b"png "], &[b"jpeg"], 1),
    (&[b"jpeg", b"png ", b"rle "], &[b"rle ", b"rle ", b"jpeg"], 1),
    (&[b"jpeg", b"png "], &[b"jpeg", b"rle "], 1),
];

/// The first not passed over, and faults of both kinds.
fn charged() -> Vec<Case> {
    let two = || of_formats(b"vide", &[b"jpeg", b"png "]);
    let [vfmt, png] = [b"vfmt", b"png "].map(|text| u32::from_be_bytes(*text));
    let before = [[0, 1, vfmt, png], names(b"afmt", b"png "), says(b"tvsz", u32::MAX), [0, UNIVERSAL, 0, 0]];
    let named = [names(b"vfmt", b"jpeg"), names(b"vfmt", b"jpeg")];
    let low = says(b"avvb", 8799);
    vec![
        case(two(), &[&before[..], &named].concat(), 4),
        case(of_formats(b"vide", &[b"jpeg"]), &[&before[..], &named].concat(), 0),
        case(two(), &[named[0], low], 1),
        case(two(), &[low, named[0]], 1),
        case(two(), &[says(b"avvb", 8800), named[0], low], 2),
        case(empty_track(1), &[names(b"vfmt", b"jpeg")], 1),
        case(empty_track(1), &[names(b"afmt", b"jpeg"), says(b"vfmt", 0)], 2),
    ]
}

/// "for a track profile": the first 'prfl' before tkhd, of version 0. A movie's own profile is no track's.
fn stored() -> Vec<(&'static str, Node, u64)> {
    let bad = || prfl(&[says(b"avvb", 0)]);
    let good = || prfl(&[says(b"avvb", 8800)]);
    let with = |change: &dyn Fn(&mut Node)| {
        let mut film = w();
        change(&mut film);
        film
    };
    let of_movie = Movie { profile: Some(vec![says(b"avvb", 0)]), ..w_movie() };
    vec![
        ("no-profile", w(), 0),
        (
            "profile-of-version-1",
            with(&|film| {
                film.insert_before("moov trak tkhd", bad());
                film.at("moov trak prfl").body[0] = 1;
            }),
            0,
        ),
        (
            "first-of-two-profiles",
            with(&|film| {
                film.insert_before("moov trak tkhd", good());
                film.insert_before("moov trak tkhd", bad());
            }),
            0,
        ),
        (
            "version-1-before-version-0",
            with(&|film| {
                film.insert_before("moov trak tkhd", good());
                film.at("moov trak prfl").body[0] = 1;
                film.insert_before("moov trak tkhd", bad());
            }),
            0,
        ),
        ("profile-after-tkhd", with(&|film| film.insert_after("moov trak tkhd", bad())), 0),
        ("profile-of-the-movie", of_movie.file_of(4096), 0),
        ("mdhd-121", film_of(&[case(Track { duration: 121, ..w_track() }, &[says(b"avvb", 8799)], 1)]), 1),
    ]
}

/// A film of those tracks, with the IDs from 1 on.
fn film_of(cases: &[Case]) -> Node {
    let tracks =
        (1..).zip(cases).map(|(id, case)| Track { id, profile: Some(case.records.clone()), ..case.track.clone() });
    Movie { tracks: tracks.collect(), ..w_movie() }.file_of(LENGTH)
}

fn line(film: &[u8], id: u32) -> String {
    match profile_fault(film, id) {
        (0, 0) => format!("{id}: yes"),
        (0, place) => format!("{id}: record {place}"),
        (number, _) => format!("{id}: refused {number}"),
    }
}

/// Writes the film, prints its lines, and answers its name.
fn store(folder: &str, number: u32, name: &str, film: &[u8]) -> String {
    let name = format!("{number}-{name}.mov");
    assert_eq!(refusal(film), number, "{name}");
    assert!(film.len() < 65_536, "{name}");
    std::fs::write(format!("{folder}/{name}"), film).unwrap();
    println!("{name}");
    (0..IDS).for_each(|id| println!("  {}", line(film, id)));
    name + "\n"
}

/// The cases in films of a few tracks each.
fn store_cases(folder: &str, name: &str, cases: &[Case]) -> String {
    let mut args = String::new();
    for (nth, some) in (1..).zip(cases.chunks(TRACKS)) {
        let film = film_of(some).bytes();
        for (id, case) in (1..).zip(some) {
            assert_eq!(profile_fault(&film, id), (0, case.place), "{name} {nth} {id}");
        }
        args += &store(folder, 0, &format!("{name}-{nth}"), &film);
    }
    args
}

fn main() {
    let arguments: Vec<String> = std::env::args().collect();
    let [_, folder, file] = &arguments[..] else {
        panic!("profile_films FOLDER NAMES");
    };
    let mut args = String::new();
    for (name, film, place) in stored() {
        assert_eq!(profile_fault(&film.bytes(), 1), (0, place), "{name}");
        args += &store(folder, 0, name, &film.bytes());
    }
    let pictures = [("avvb", 8800), ("mvbr", 8800), ("vfps", 0x0019_0000)];
    let sound = [("avab", 8800), ("mabr", 8800)];
    let code = |text: &str| text.as_bytes().try_into().unwrap();
    let features = pictures.iter().flat_map(|(text, value)| enough(b"vide", &code(text), *value));
    let features = features.chain(sound.iter().flat_map(|(text, value)| enough(b"soun", &code(text), *value)));
    args += &store_cases(folder, "at-least-the-feature", &features.collect::<Vec<_>>());
    let rules = [
        ("tvsz-in-each-half", halves()),
        ("not-computed", not_computed()),
        ("averages-by-edits", edited()),
        ("averages-and-highest-rates", rates()),
        ("numerators", numerators()),
        ("descriptions-of-several-sizes", sized()),
        ("passed-over", passed_over()),
        ("first-at-fault", places()),
        ("same-formats", formats(SAME)),
        ("format-not-there", formats(NOT_THERE)),
        ("format-missing", formats(MISSING)),
        ("missing-charged-to-the-first", charged()),
    ];
    for (name, cases) in &rules {
        args += &store_cases(folder, name, cases);
    }
    let low = Track { profile: Some(vec![says(b"avvb", 0)]), ..w_track() };
    for (number, name, film) in spoiled(&low, |track| Movie { tracks: vec![track], ..w_movie() }.file_of(4096)) {
        args += &store(folder, number, name, &film.bytes());
    }
    std::fs::write(file, args).unwrap();
}
