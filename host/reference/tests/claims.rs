//! Document 02, "Is the camera's own profile true?", clause by clause.
use reference::film::*;
use reference::made::{edits, empty_track, PICTURE_CLAIMS};
use reference::maker::claims::{claiming, FEATURES, UNIVERSAL};
use reference::maker::Random;
use reference::movie::refusals::read;
use reference::movie::tables::{Record, Track as Read};
use reference::movie::*;
use std::collections::BTreeSet;

fn code(text: &[u8; 4]) -> u32 {
    u32::from_be_bytes(*text)
}

/// A universal record.
fn says(feature: &[u8; 4], value: u32) -> [u32; 4] {
    [7, UNIVERSAL, code(feature), value]
}

fn names(record: &[u8; 4], format: &[u8; 4]) -> [u32; 4] {
    says(record, code(format))
}

fn film(track: Track, records: &[[u32; 4]]) -> Vec<u8> {
    let track = Track { profile: Some(records.to_vec()), ..track };
    Movie { tracks: vec![track], ..w_movie() }.file_of(4096).bytes()
}

fn fault(track: Track, records: &[[u32; 4]]) -> u64 {
    let (number, place) = profile_fault(&film(track, records), 1);
    assert_eq!(number, 0);
    place
}

fn of_subtype(subtype: &[u8; 4]) -> Track {
    Track { subtype: *subtype, ..w_track() }
}

/// A track with descriptions of those formats.
fn of_formats(subtype: &[u8; 4], formats: &[&[u8; 4]]) -> Track {
    let descriptions = formats.iter().map(|format| description(format, 36)).collect();
    Track { descriptions, ..of_subtype(subtype) }
}

#[test]
fn without_a_profile_yes() {
    assert_eq!(profile_fault(&w().bytes(), 1), (0, 0));
    assert_eq!(fault(w_track(), &[]), 0);
    // "Version not 0: there is none."
    let mut other = w();
    other.insert_before("moov trak tkhd", prfl(&[says(b"avvb", 0)]));
    assert_eq!(profile_fault(&other.bytes(), 1), (0, 1));
    other.at("moov trak prfl").body[0] = 1;
    assert_eq!(profile_fault(&other.bytes(), 1), (0, 0));
}

#[test]
fn refusals_are_the_files_and_14() {
    let wrong = film(Track { stco: vec![9999, 0], ..w_track() }, &[says(b"avvb", 0)]);
    assert_eq!(profile_fault(&wrong, 1), (12, 0));
    assert_eq!(profile_fault(&wrong, 2), (12, 0));
    // "For a track profile": ID 0 is no track's, though the movie has a profile of its own.
    let movie = Movie { profile: Some(vec![says(b"avvb", 0)]), ..w_movie() }.file_of(4096).bytes();
    assert_eq!([0, 2].map(|id| profile_fault(&movie, id)), [(14, 0); 2]);
    assert_eq!(profile_fault(&movie, 1), (0, 0));
    // The default: another mdhd duration is no refusal here.
    assert_eq!(fault(Track { duration: 121, ..w_track() }, &[says(b"avvb", 8800)]), 0);
}

#[test]
fn at_least_the_computed_feature() {
    let claims: [(&[u8; 4], &[u8; 4], u32); 5] = [
        (b"vide", b"avvb", 8800),
        (b"vide", b"mvbr", 8800),
        (b"vide", b"vfps", 0x0019_0000),
        (b"soun", b"avab", 8800),
        (b"soun", b"mabr", 8800),
    ];
    for (subtype, feature, value) in claims {
        for (said, place) in [(0, 1), (value - 1, 1), (value, 0), (value + 1, 0), (u32::MAX, 0)] {
            assert_eq!(fault(of_subtype(subtype), &[says(feature, said)]), place, "{said}");
        }
    }
}

#[test]
fn averages_are_those_of_the_edits() {
    let edited = || Track { edits: edits(&[(60, -1), (60, 24)]), ..w_track() };
    assert_eq!(fault(edited(), &[says(b"avvb", 6000)]), 0);
    assert_eq!(fault(edited(), &[says(b"avvb", 5999)]), 1);
    // "18 also when no entry shows media": no value is enough.
    let nothing = Track { edits: edits(&[(60, -1)]), ..w_track() };
    assert_eq!(fault(nothing, &[says(b"avvb", u32::MAX)]), 1);
}

#[test]
fn tvsz_at_least_in_each_half() {
    for (width, height, place) in PICTURE_CLAIMS.into_iter().chain([(0, 65535, 1)]) {
        assert_eq!(fault(w_track(), &[says(b"tvsz", width * 65536 + height)]), place, "{width} {height}");
    }
}

#[test]
fn a_feature_refused_18_is_at_fault() {
    // The wrong subtype.
    for (subtype, wrong) in [
        (b"vide", &[b"avab", b"mabr"][..]),
        (b"soun", &[b"avvb", b"mvbr", b"vfps", b"tvsz"]),
        (b"text", &FEATURES),
        (b"VIDE", &FEATURES),
    ] {
        for feature in wrong {
            assert_eq!(fault(of_subtype(subtype), &[says(feature, u32::MAX)]), 1);
        }
    }
    // Nothing to divide by, and no description.
    for feature in [b"avvb", b"mvbr", b"vfps", b"tvsz"] {
        assert_eq!(fault(empty_track(1), &[says(feature, u32::MAX)]), 1);
    }
    // A result over 4,294,967,295.
    assert_eq!(fault(Track { scale: u32::MAX, ..w_track() }, &[says(b"avvb", u32::MAX)]), 1);
}

#[test]
fn other_records_are_passed_over() {
    // Other part-IDs, the track's own ID among them.
    for part in [0, 1, 0x2020_2021, 0x2020_201f, 0x2000_0000, u32::MAX] {
        for feature in [b"avvb", b"avab", b"mvbr", b"mabr", b"vfps", b"tvsz", b"vfmt", b"afmt"] {
            assert_eq!(fault(w_track(), &[[0, part, code(feature), 0]]), 0);
        }
    }
    // Other codes.
    for other in [b"AVVB", b"avvc", b"avvB", b"VFMT", b"\0\0\0\x01", b"    "] {
        assert_eq!(fault(w_track(), &[says(other, 0)]), 0);
    }
}

#[test]
fn the_first_at_fault_by_its_place_in_the_stored_profile() {
    let (good, bad, other) = (says(b"avvb", 8800), says(b"vfps", 0), [0, 1, code(b"avvb"), 0]);
    let none = [9, UNIVERSAL, 0, 0];
    assert_eq!(fault(w_track(), &[good, other, bad, bad]), 3);
    // "Records with code 0 are passed over" in the stored profile, so they have no place.
    assert_eq!(fault(w_track(), &[none, good, none, bad]), 2);
    assert_eq!(fault(w_track(), &[none, none]), 0);
    // A feature said twice must hold twice, and the last of 64 records counts too.
    assert_eq!(fault(w_track(), &[good, says(b"avvb", 8799)]), 2);
    assert_eq!(fault(w_track(), &[vec![good; 63], vec![bad]].concat()), 64);
}

#[test]
fn each_track_has_its_own() {
    let track = |id, value| Track { id, profile: Some(vec![says(b"avvb", value)]), ..w_track() };
    let film = Movie { tracks: vec![track(5, 8800), track(3, 8799)], ..w_movie() }.file_of(4096).bytes();
    assert_eq!([5, 3].map(|id| profile_fault(&film, id)), [(0, 0), (0, 1)]);
}

/// The formats a track has, what its format records name, and the place at fault: alike for pictures and for sound, each by its own code. In a track of
/// another subtype, and by the other's code, the records are passed over.
#[track_caller]
fn formats(has: &[&[u8; 4]], named: &[&[u8; 4]], place: u64) {
    let records = |code| named.iter().map(|format| names(code, format)).collect::<Vec<_>>();
    assert_eq!(fault(of_formats(b"vide", has), &records(b"vfmt")), place);
    assert_eq!(fault(of_formats(b"soun", has), &records(b"afmt")), place);
    assert_eq!(fault(of_formats(b"vide", has), &records(b"afmt")), 0);
    assert_eq!(fault(of_formats(b"soun", has), &records(b"vfmt")), 0);
    for code in [b"vfmt", b"afmt"] {
        assert_eq!(fault(of_formats(b"text", has), &records(code)), 0);
    }
}

#[test]
fn exactly_the_formats_in_any_order_repeats_allowed() {
    formats(&[b"jpeg"], &[b"jpeg"], 0);
    formats(&[b"jpeg"], &[b"jpeg", b"jpeg", b"jpeg"], 0);
    formats(&[b"jpeg", b"jpeg"], &[b"jpeg"], 0);
    formats(&[b"jpeg", b"png ", b"rle "], &[b"rle ", b"jpeg", b"png ", b"jpeg"], 0);
    // "If any ... record is there": none is.
    formats(&[b"jpeg", b"png "], &[], 0);
}

#[test]
fn a_format_that_is_not_there_is_its_own_records_fault() {
    formats(&[b"jpeg"], &[b"jpeg", b"jpeG"], 2);
    formats(&[b"jpeg"], &[b"jpeg", b"jpeg", b"\0\0\0\0"], 3);
    formats(&[b"jpeg"], &[b"png ", b"jpeg"], 1);
}

#[test]
fn a_missing_format_is_charged_to_the_first() {
    formats(&[b"jpeg", b"png "], &[b"jpeg"], 1);
    formats(&[b"jpeg", b"png ", b"rle "], &[b"rle ", b"rle ", b"jpeg"], 1);
    // A later record is wrong too.
    formats(&[b"jpeg", b"png "], &[b"jpeg", b"rle "], 1);
    // The first not passed over: one of another part-ID, one of the other's code and a feature stand before it.
    let before = [[0, 1, code(b"vfmt"), code(b"png ")], names(b"afmt", b"png "), says(b"tvsz", u32::MAX)];
    let named = [names(b"vfmt", b"jpeg"), names(b"vfmt", b"jpeg")];
    assert_eq!(fault(of_formats(b"vide", &[b"jpeg", b"png "]), &[&before[..], &named].concat()), 4);
    assert_eq!(fault(of_formats(b"vide", &[b"jpeg"]), &[&before[..], &named].concat()), 0);
}

#[test]
fn faults_of_both_kinds() {
    let two = || of_formats(b"vide", &[b"jpeg", b"png "]);
    let (low, missing) = (says(b"avvb", 8799), names(b"vfmt", b"jpeg"));
    assert_eq!(fault(two(), &[missing, low]), 1);
    assert_eq!(fault(two(), &[low, missing]), 1);
    assert_eq!(fault(two(), &[says(b"avvb", 8800), missing, low]), 2);
}

#[test]
fn without_descriptions_each_value_is_wrong() {
    assert_eq!(fault(empty_track(1), &[names(b"vfmt", b"jpeg")]), 1);
    assert_eq!(fault(empty_track(1), &[names(b"afmt", b"jpeg"), says(b"vfmt", 0)]), 2);
}

/// The rules once more, the faults as a set of places of which the least is taken.
fn literal(film: &[u8], track: &Read, records: &[Record]) -> u64 {
    let id = u32::try_from(track.tables.id).unwrap();
    let universal = |record: &Record| record.part_id == u64::from(UNIVERSAL);
    let names = match &u32::try_from(track.tables.subtype).unwrap().to_be_bytes() {
        b"vide" => Some(u64::from(code(b"vfmt"))),
        b"soun" => Some(u64::from(code(b"afmt"))),
        _ => None,
    };
    let mut faults = BTreeSet::new();
    let mut named = Vec::new();
    for (place, record) in (1..).zip(records).filter(|(_, record)| universal(record)) {
        let feature_code = u32::try_from(record.code).unwrap();
        if FEATURES.iter().any(|feature| code(feature) == feature_code) {
            let (number, value) = feature(film, id, feature_code);
            let shift = if feature_code == code(b"tvsz") { 16 } else { 32 };
            let split = |n: u64| [n >> shift, n & ((1 << shift) - 1)];
            let [high, low] = split(u64::from(value));
            let [said_high, said_low] = split(record.value);
            if number == 18 || said_high < high || said_low < low {
                faults.insert(place);
            }
        }
        if Some(record.code) == names {
            named.push((place, record.value));
        }
    }
    let values: BTreeSet<u64> = named.iter().map(|(_, value)| *value).collect();
    let formats: BTreeSet<u64> = track.tables.formats.iter().copied().collect();
    faults.extend(named.iter().filter(|(_, value)| !formats.contains(value)).map(|(place, _)| *place));
    if !formats.is_subset(&values) {
        faults.extend(named.first().map(|(place, _)| *place));
    }
    faults.first().copied().unwrap_or(0)
}

#[test]
fn the_literal_judgement_is_the_same() {
    let (mut yes, mut no, mut later) = (0, 0, 0);
    for index in 0..800 {
        let film = claiming(&mut Random::of(12, index));
        let movie = read(&film).unwrap();
        for track in &movie.tracks {
            let id = u32::try_from(track.tables.id).unwrap();
            let records = movie.stored_profile(id).unwrap();
            let (number, place) = profile_fault(&film, id);
            assert_eq!((number, place), (0, literal(&film, track, &records)), "film {index}, track {id}");
            yes += u32::from(place == 0 && !records.is_empty());
            no += u32::from(place > 0);
            later += u32::from(place > 1);
        }
    }
    assert!(yes > 100 && no > 100 && later > 100, "{yes} {no} {later}");
}
