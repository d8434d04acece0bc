//! The parts of refusals 9 and 13 that a set is asked for, sentence by sentence.
use crate::lists::{chunks, long, sizes};
use reference::film::Track;

/// "an stts or ctts entry counts 0 samples; stts, or a present ctts, doesn't total N"
pub fn counts(counts: &[u32], n: u64) -> bool {
    !counts.contains(&0) && counts.iter().map(|count| u64::from(*count)).sum::<u64>() == n
}

pub fn stts_counts(track: &Track) -> Vec<u32> {
    track.stts.iter().map(|entry| entry.0).collect()
}

pub fn ctts_counts(track: &Track) -> Option<Vec<u32>> {
    track.ctts.as_ref().map(|entries| entries.iter().map(|entry| entry.0).collect())
}

fn is_strictly_rising(numbers: &[u32]) -> bool {
    (1..numbers.len()).all(|i| numbers[i - 1] < numbers[i])
}

/// "stss isn't strictly rising within 1 to N"
pub fn syncs_agree(track: &Track, n: u64) -> bool {
    match &track.stss {
        Some(stss) => is_strictly_rising(stss) && stss.iter().all(|number| 1 <= *number && u64::from(*number) <= n),
        None => true,
    }
}

/// What refusal 9 says of stsc with C chunks and so many descriptions, but for the total of the samples.
pub fn deals_agree(track: &Track, descriptions: u64) -> bool {
    let c = long(track.stco.len());
    let firsts: Vec<u32> = track.stsc.iter().map(|entry| entry.0).collect();
    // "C is 0 with stsc not empty"
    if c == 0 && !firsts.is_empty() {
        return false;
    }
    // "C is above 0 and stsc is empty, doesn't start at chunk 1, isn't strictly rising, or passes C"
    if c > 0 && (firsts.is_empty() || firsts[0] != 1 || !is_strictly_rising(&firsts)) {
        return false;
    }
    if firsts.iter().any(|first| u64::from(*first) > c) {
        return false;
    }
    // "an entry has 0 samples per chunk; an ID is 0 or above the number of descriptions"
    track.stsc.iter().all(|entry| entry.1 != 0 && entry.2 != 0 && u64::from(entry.2) <= descriptions)
}

/// "samples dealt to the C chunks"; for an stsc that agrees.
pub fn dealt(track: &Track) -> u64 {
    chunks(track).iter().map(|chunk| chunk.samples).sum()
}

/// What refusal 9 says of stsc, the total of the samples with it.
pub fn deals_samples(track: &Track, descriptions: u64, samples: u64) -> bool {
    deals_agree(track, descriptions) && dealt(track) == samples
}

/// "sample tables contradict each other"
pub fn contradict(track: &Track) -> bool {
    let n = long(sizes(track).len());
    !(counts(&stts_counts(track), n)
        && ctts_counts(track).is_none_or(|each| counts(&each, n))
        && deals_samples(track, long(track.descriptions.len()), n)
        && syncs_agree(track, n))
}

/// "floor(x × media scale / movie scale)"
pub fn in_media(x: u64, scale: u32, movie: u32) -> u128 {
    u128::from(x) * u128::from(scale) / u128::from(movie)
}

/// Not "no entry; a duration 0; a rate other than 65536 (1.0); a media time below -1; or an entry with media time m ≥ 0 and duration d where
/// m + floor((d-1) × media scale / movie scale) is not below the sample total"
pub fn edits_ok(track: &Track, movie: u32, total: u64) -> bool {
    let Some(edits) = &track.edits else {
        return true;
    };
    let right = |edit: &(u32, i32, u32)| {
        let (duration, media, rate) = *edit;
        if duration == 0 || rate != 65536 || media < -1 {
            return false;
        }
        let last = |m: u128| m + in_media(u64::from(duration) - 1, track.scale, movie);
        media == -1 || last(u128::try_from(media).unwrap()) < u128::from(total)
    };
    !edits.is_empty() && edits.iter().all(right)
}
