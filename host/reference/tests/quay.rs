//! Document 02, "The quay film profile", rule by rule.
use reference::film::*;
use reference::made::{breaking as broken, edits, empty_track, quay_syncs as syncs, quay_track as good, sync_groups};
use reference::maker::quay::quay;
use reference::maker::Random;
use reference::movie::refusals::read;
use reference::movie::tables::Track as Read;
use reference::movie::*;

/// The rule and the ID, of a film that is accepted.
fn fault(tracks: &[Track]) -> (u64, u64) {
    let film = Movie { tracks: tracks.to_vec(), ..w_movie() }.file_of(4096).bytes();
    let (number, answer) = quay_fault(&film);
    assert_eq!(number, 0);
    answer
}

/// The rule that a single track breaks, 0 for none.
fn rule(track: Track) -> u64 {
    let (rule, id) = fault(&[track]);
    assert_eq!(id, if rule > 1 { 1 } else { 0 });
    rule
}

#[test]
fn one_or_two_tracks_that_keep_the_rules() {
    assert_eq!(fault(&[good(9)]), (0, 0));
    // Both may have their chunks in the same place.
    assert_eq!(fault(&[good(9), good(4)]), (0, 0));
    assert_eq!(fault(&[good(u32::MAX), Track { stco: vec![2590, 2850], ..good(1) }]), (0, 0));
}

#[test]
fn refusals_are_those_of_the_file() {
    let film = |track| Movie { tracks: vec![track], ..w_movie() }.file_of(4096).bytes();
    assert_eq!(quay_fault(&film(Track { stco: vec![9999, 9999], ..good(1) })), (12, (0, 0)));
    assert_eq!(quay_fault(&[]), (3, (0, 0)));
    // The default: another mdhd duration is no refusal here.
    assert_eq!(quay_fault(&film(Track { duration: 97, ..good(1) })), (0, (0, 0)));
}

#[test]
fn the_first_rule_has_no_track() {
    let of = |id, subtype: &[u8; 4]| Track { subtype: *subtype, ..good(id) };
    for tracks in [
        vec![],
        vec![good(1), good(2), good(3)],
        vec![of(1, b"soun")],
        vec![of(1, b"VIDE")],
        vec![good(1), of(2, b"soun")],
        vec![of(1, b"text"), good(2)],
    ] {
        assert_eq!(fault(&tracks), (1, 0));
        // Whatever other rule is broken.
        for rule in 2..=9 {
            let all: Vec<Track> = tracks.iter().map(|track| broken(track.clone(), rule)).collect();
            assert_eq!(fault(&all), (1, 0));
        }
    }
}

#[test]
fn each_rule_alone() {
    for rule in 2..=9 {
        let bad = |id| broken(good(id), rule);
        assert_eq!(fault(&[bad(7)]), (rule, 7));
        assert_eq!(fault(&[bad(7), good(3)]), (rule, 7));
        assert_eq!(fault(&[good(7), bad(3)]), (rule, 3));
        // "the first track in file order", not that with the lowest ID
        assert_eq!(fault(&[bad(7), bad(3)]), (rule, 7));
    }
}

#[test]
fn the_lowest_of_two_rules() {
    for low in 2..=9 {
        for high in low + 1..=9 {
            assert_eq!(fault(&[broken(broken(good(7), low), high)]), (low, 7), "{high}");
            assert_eq!(fault(&[broken(good(7), low), broken(good(3), high)]), (low, 7), "{high}");
            assert_eq!(fault(&[broken(good(7), high), broken(good(3), low)]), (low, 3), "{high}");
            assert_eq!(fault(&[good(7), broken(broken(good(3), low), high)]), (low, 3), "{high}");
        }
    }
}

#[test]
fn edits_and_descriptions() {
    for one in [(96, 0), (1, -1)] {
        assert_eq!(rule(Track { edits: edits(&[one]), ..good(1) }), 0);
    }
    assert_eq!(rule(Track { edits: edits(&[(1, -1), (1, -1)]), ..good(1) }), 2);
    assert_eq!(rule(Track { descriptions: vec![picture(1, 1); 64], ..good(1) }), 3);
}

#[test]
fn a_track_with_no_samples() {
    let one = || Track { descriptions: vec![picture(1, 1)], ..empty_track(1) };
    assert_eq!(rule(one()), 5);
    assert_eq!(rule(Track { stss: Some(vec![]), ..one() }), 5);
    // Lower rules come first: no description, and a ctts, though it is empty.
    assert_eq!(rule(empty_track(1)), 3);
    assert_eq!(rule(Track { ctts: Some(vec![]), ..one() }), 4);
    assert_eq!(fault(&[good(7), Track { id: 3, ..one() }]), (5, 3));
}

#[test]
fn sync_samples() {
    // "(all are, without stss)"
    assert_eq!(rule(syncs(1000, None)), 0);
    let more = [(749, vec![1, 250, 500], 0), (750, vec![1, 250, 500], 5), (4, vec![2], 5)];
    for (samples, stss, number) in sync_groups().into_iter().chain(more) {
        assert_eq!(rule(syncs(samples, Some(stss.clone()))), number, "{samples} {stss:?}");
    }
}

#[test]
fn sizes_and_durations() {
    assert_eq!(rule(Track { stsz: Sizes::Common(1, 4), ..good(1) }), 0);
    assert_eq!(rule(Track { stsz: Sizes::Each(vec![1, 1, 1, 0]), ..good(1) }), 6);
    assert_eq!(rule(Track { stsz: Sizes::Each(vec![0; 4]), ..good(1) }), 6);
    for stts in [vec![(1, 0), (3, 24)], vec![(3, 24), (1, 0)], vec![(4, 0)]] {
        assert_eq!(rule(Track { stts, ..good(1) }), 7);
    }
}

#[test]
fn chunks() {
    // 180 bytes, then 70.
    for (stco, number) in [
        ([2600, 2780], 0),
        ([2600, 2781], 0),
        ([2600, 2779], 8),
        ([2600, 2600], 8),
        ([2600, 2599], 8),
        ([2600, 2530], 8),
        ([0, 180], 0),
    ] {
        assert_eq!(rule(Track { stco: stco.to_vec(), ..good(1) }), number, "{stco:?}");
    }
    // The last pair of many counts too.
    let four = |last| Track { stsc: vec![(1, 1, 1)], stco: vec![2600, 2700, 2750, last], ..good(1) };
    assert_eq!([2780, 2779].map(four).map(rule), [0, 8]);
}

#[test]
fn frames() {
    // Exactly 30.0, and next to it: 30.0 times 143,165,576 is 15 below 2^32 - 1.
    for (scale, least, number) in [
        (600, 20, 0),
        (601, 20, 9),
        (599, 20, 0),
        (600, 19, 9),
        (30_000, 1001, 0),
        (30_001, 1000, 9),
        (30, 1, 0),
        (31, 1, 9),
        (1, 1, 0),
        (u32::MAX, 143_165_577, 0),
        (u32::MAX, 143_165_576, 9),
        // Refused 18: the result is over 4,294,967,295.
        (u32::MAX, 1, 9),
    ] {
        let stts = vec![(1, least + 1), (1, least), (2, least + 1)];
        assert_eq!(rule(Track { scale, stts, ..good(1) }), number, "{scale} {least}");
    }
}

/// Whether a track breaks a rule, each judged sample by sample.
fn literal(track: &Read, rule: u64) -> bool {
    let all = &track.samples;
    match rule {
        2 => track.tables.edits.iter().flatten().count() > 1,
        3 => track.tables.formats.len() != 1,
        4 => track.tables.ctts.is_some(),
        // A count that starts full: only a sync sample 1 sets it back.
        5 => {
            let mut since_sync = 250;
            let is_too_far = |sample: &Sample| {
                since_sync = if sample.is_sync { 1 } else { since_sync + 1 };
                since_sync > 250
            };
            all.is_empty() || all.iter().any(is_too_far)
        }
        6 => all.iter().any(|sample| sample.size == 0),
        7 => all.iter().any(|sample| sample.duration == 0),
        // Where the chunk changes, the next sample begins at or after the end of the last one, and after its chunk's beginning.
        8 => all.windows(2).any(|pair| {
            let begin = all.iter().find(|sample| sample.chunk == pair[0].chunk).unwrap().offset;
            let (end, next) = (pair[0].offset + pair[0].size, pair[1].offset);
            pair[0].chunk != pair[1].chunk && (next < end || next <= begin)
        }),
        // Without a zero duration, each sample lasts at least a thirtieth of a second.
        _ => all.iter().any(|sample| 30 * u128::from(sample.duration) < u128::from(track.tables.scale)),
    }
}

#[test]
fn the_literal_judgement_is_the_same() {
    let mut met = [0; 10];
    for index in 0..700 {
        let film = quay(&mut Random::of(11, index));
        let tracks = read(&film).unwrap().tracks;
        let all_video = tracks.iter().all(|track| track.tables.subtype == u64::from(u32::from_be_bytes(*b"vide")));
        let broken = |rule| Some((rule, tracks.iter().find(|track| literal(track, rule))?.tables.id));
        let expected = match tracks.len() {
            1 | 2 if all_video => (2..=9).find_map(broken).unwrap_or((0, 0)),
            _ => (1, 0),
        };
        assert_eq!(quay_fault(&film), (0, expected), "film {index}");
        met[usize::try_from(expected.0).unwrap()] += 1;
    }
    assert!(met.iter().all(|films| *films > 10), "{met:?}");
}
