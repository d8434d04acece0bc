//! Document 02, "Highest rate over a second", on cases computed by hand.
use reference::film::*;
use reference::made::empty_track;
use reference::maker::{self, Random};
use reference::movie::refusals::read;
use reference::movie::tables::Sample;
use reference::movie::*;

fn code(text: &[u8; 4]) -> u32 {
    u32::from_be_bytes(*text)
}

/// A track of that scale whose samples are each a chunk of its own at offset 0: a sample may have any size up to the file's.
fn track(scale: u32, stts: &[(u32, u32)], stsz: Sizes) -> Track {
    let n: u32 = stts.iter().map(|(count, _)| count).sum();
    let duration = stts.iter().map(|(count, duration)| count * duration).sum();
    let stco = vec![0; usize::try_from(n).unwrap()];
    Track { scale, duration, stts: stts.to_vec(), stsc: vec![(1, 1, 1)], stsz, stco, ..w_track() }
}

fn each(sizes: &[u32]) -> Sizes {
    Sizes::Each(sizes.to_vec())
}

/// One sample for each duration and size.
fn samples(scale: u32, list: &[(u32, u32)]) -> Track {
    let stts: Vec<(u32, u32)> = list.iter().map(|(duration, _)| (1, *duration)).collect();
    let sizes: Vec<u32> = list.iter().map(|(_, size)| *size).collect();
    track(scale, &stts, each(&sizes))
}

fn film(track: Track) -> Vec<u8> {
    Movie { tracks: vec![track], ..w_movie() }.file_of(200_000).bytes()
}

/// The rate, the first sample and the number of samples; nothing where it is refused 18. The same for pictures and for sound, each by its own code,
/// and refused 18 by the other's, and in a track that is neither.
#[track_caller]
fn says(track: Track, answer: Option<(u32, u64, u64)>) {
    let of = |subtype: &[u8; 4], feature_code: &[u8; 4]| {
        let film = film(Track { subtype: *subtype, ..track.clone() });
        (feature(&film, 1, code(feature_code)), peak(&film, 1, code(feature_code)))
    };
    let refused = ((18, 0), (18, (0, 0)));
    let expected = answer.map_or(refused, |(rate, first, samples)| ((0, rate), (0, (first, samples))));
    assert_eq!(of(b"vide", b"mvbr"), expected);
    assert_eq!(of(b"soun", b"mabr"), expected);
    assert_eq!(of(b"soun", b"mvbr"), refused);
    assert_eq!(of(b"vide", b"mabr"), refused);
    for other in [b"text", b"VIDE", b"SOUN"] {
        assert_eq!((of(other, b"mvbr"), of(other, b"mabr")), (refused, refused));
    }
}

#[test]
fn no_run_of_w_gets_there() {
    // A fifth of a second: 8 × 220 × 600 / 120.
    let film = w().bytes();
    assert_eq!(feature(&film, 1, code(b"mvbr")), (0, 8800));
    assert_eq!(peak(&film, 1, code(b"mvbr")), (0, (1, 4)));
    says(w_track(), Some((8800, 1, 4)));
}

#[test]
fn order_of_refusals() {
    let refused = film(Track { stco: vec![u32::MAX, 0], ..w_track() });
    let whole = w().bytes();
    for feature_code in [code(b"mvbr"), code(b"mabr"), code(b"avvb"), 0] {
        assert_eq!(peak(&refused, 2, feature_code), (12, (0, 0)));
        assert_eq!(peak(&whole, 2, feature_code), (14, (0, 0)));
        assert_eq!(peak(&whole, 0, feature_code), (14, (0, 0)));
    }
    // The place is asked for by these two codes alone.
    for other in [b"avvb", b"tvsz", b"vfps", b"MVBR", &[0; 4]] {
        assert_eq!(peak(&whole, 1, code(other)), (18, (0, 0)));
    }
}

#[test]
fn one_run_of_frames() {
    // 25 frames are a second. All runs are alike: the first is named.
    says(track(600, &[(50, 24)], Sizes::Common(100, 50)), Some((20_000, 1, 25)));
    // The first and the second run are 25 frames, of which the second has the last one.
    let mut sizes = vec![100; 26];
    sizes[25] = 101;
    says(track(600, &[(26, 24)], each(&sizes)), Some((20_008, 2, 25)));
}

#[test]
fn a_burst_at_the_end() {
    // Samples 11 to 20 have 5 × 1 and 5 × 9 bytes in a second.
    let mut sizes = vec![1; 15];
    sizes.extend([9; 5]);
    says(track(10, &[(20, 1)], each(&sizes)), Some((400, 11, 10)));
    // A last sample that is longer than the rest: samples 11 to 16 last 5 and 5.
    let sizes: Vec<u32> = (0..16).map(|i| if i == 15 { 1000 } else { 1 }).collect();
    says(track(10, &[(15, 1), (1, 5)], each(&sizes)), Some((8040, 11, 6)));
}

#[test]
fn samples_of_no_duration() {
    // Runs: 1 to 3 (9 bytes in 10 units: 72), 2 to 3 (16), 3 to 5 (53 in 15: 282.7), 4 to 5 (52 in 10: 416), 5 (16).
    says(samples(10, &[(0, 7), (5, 1), (5, 1), (0, 50), (10, 2)]), Some((416, 4, 2)));
    // One at the end belongs to no run.
    says(samples(10, &[(10, 1), (0, 100)]), Some((8, 1, 1)));
    // With a time scale of 11 no run gets there, and it belongs to the whole: 8 × 101 × 11 / 10.
    says(samples(11, &[(10, 1), (0, 100)]), Some((889, 1, 2)));
}

#[test]
fn a_total_just_below_at_and_above_a_second() {
    // 480 / 9, 480 / 10, 480 / 11.
    says(samples(10, &[(5, 3), (4, 3)]), Some((54, 1, 2)));
    says(samples(10, &[(5, 3), (5, 3)]), Some((48, 1, 2)));
    says(samples(10, &[(5, 3), (6, 3)]), Some((44, 1, 2)));
    // Once the first run gets there the second, of 480 / 9 and less than a second, is left out.
    says(samples(10, &[(10, 3), (5, 3), (4, 3)]), Some((24, 1, 1)));
    says(samples(10, &[(10, 3), (5, 3), (5, 3)]), Some((48, 2, 2)));
    // A sample that is longer than a second is a run.
    says(samples(10, &[(35, 7), (35, 8), (35, 7)]), Some((19, 2, 1)));
}

#[test]
fn the_first_of_equal_rates() {
    // 80 / 19, 80 / 17 and 80 / 16 are all 5, rounded up.
    says(samples(10, &[(19, 1), (17, 1), (16, 1)]), Some((5, 1, 1)));
    says(samples(10, &[(20, 1), (17, 1), (16, 1)]), Some((5, 2, 1)));
    says(samples(10, &[(10, 0), (10, 0)]), Some((0, 1, 1)));
}

#[test]
fn nothing_to_divide_by() {
    says(empty_track(1), None);
    says(Track { stsz: Sizes::Common(9, 0), ..empty_track(1) }, None);
    says(samples(10, &[(0, 7)]), None);
    says(samples(1, &[(0, 0), (0, 0), (0, 0)]), None);
}

#[test]
fn results_of_32_bits() {
    // No run gets there: 8 × 15 × (2^32 - 1) / 120 is the greatest, one byte more is too much.
    says(track(u32::MAX, &[(4, 30)], each(&[5, 4, 3, 3])), Some((u32::MAX, 1, 4)));
    says(track(u32::MAX, &[(4, 30)], each(&[5, 4, 3, 4])), None);
    // 2,982 samples of 180,000 bytes in a second have 2^32 - 887,296 bits, one sample more is too much.
    says(track(2982, &[(2982, 1)], Sizes::Common(180_000, 2982)), Some((4_294_080_000, 1, 2982)));
    says(track(2983, &[(2983, 1)], Sizes::Common(180_000, 2983)), None);
}

#[test]
fn runs_that_cannot_be_computed() {
    // 12,001 samples of 46,336 bytes have more than 2^32 bits; the first run, of one sample, has 370,688.
    let later = |last| track(13_000, &[(1, 13_000), (12_000, 1), (1, last)], Sizes::Common(46_336, 12_002));
    says(later(1000), None);
    // With a unit less that run never gets there and is not judged.
    says(later(999), Some((370_688, 1, 1)));
    // The first run is the one, and those after it have 370,688.
    let first = track(13_000, &[(12_000, 1), (1, 1000), (2, 13_000)], Sizes::Common(46_336, 12_003));
    says(first, None);
}

/// The most literal search: each sample, and from it each number of samples in turn.
fn literal(samples: &[Sample], scale: u64) -> Option<(u64, u64, u64)> {
    let rate = |run: &[Sample]| {
        let durations: u64 = run.iter().map(|sample| sample.duration).sum();
        let sizes: u64 = run.iter().map(|sample| sample.size).sum();
        let bits = 8 * u128::from(sizes) * u128::from(scale);
        let rate = if durations == 0 { u128::MAX } else { bits.div_ceil(u128::from(durations)) };
        u64::try_from(rate).ok().filter(|rate| *rate <= u64::from(u32::MAX))
    };
    let mut runs: Vec<(usize, &[Sample])> = Vec::new();
    for first in 0..samples.len() {
        let mut total = 0;
        let is_last = |sample: &Sample| {
            total += sample.duration;
            total >= scale
        };
        let last = samples[first..].iter().position(is_last);
        runs.extend(last.map(|last| (first + 1, &samples[first..=first + last])));
    }
    if runs.is_empty() {
        runs.push((1, samples));
    }
    let rates: Option<Vec<u64>> = runs.iter().map(|(_, run)| rate(run)).collect();
    let greatest = *rates.as_ref()?.iter().max().unwrap();
    let (first, run) = runs[rates?.iter().position(|rate| *rate == greatest).unwrap()];
    Some((greatest, u64::try_from(first).unwrap(), u64::try_from(run.len()).unwrap()))
}

#[test]
fn the_literal_search_finds_the_same() {
    let (mut whole, mut refused, mut later) = (0, 0, 0);
    for index in 0..1000 {
        let film = maker::valid(&mut Random::of(5, index));
        for track in &read(&film).unwrap().tracks {
            let found = peaks::peak(track).map(|peak| (u64::from(peak.rate), peak.first, peak.samples));
            assert_eq!(found, literal(&track.samples, track.tables.scale), "film {index}");
            whole += u32::from(track.total < track.tables.scale);
            refused += u32::from(found.is_none());
            later += u32::from(found.is_some_and(|(_, first, _)| first > 1));
        }
    }
    assert!(whole > 100 && refused > 100 && later > 100, "{whole} {refused} {later}");
}
