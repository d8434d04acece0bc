//! Films that keep the quay film profile, many of them just, and films that break one or two of its rules.
use super::random::Random;
use super::tables::{chunk_bytes, count, deal, entries};
use crate::film::*;
use crate::made::{edits, movie};

/// Sync samples with no more than 250 samples from one to the next; no table where each is one.
fn sync_samples(random: &mut Random, samples: u32) -> Option<Vec<u32>> {
    if random.once_in(4) {
        return None;
    }
    let most = random.one(&[1, 3, 249, 250, 250]);
    let mut list = Vec::new();
    let mut next = 1;
    while next <= samples {
        list.push(next);
        let some = 1 + random.up_to(most - 1);
        next += random.one(&[most, most, some]);
    }
    Some(list)
}

/// Durations of at least a thirtieth of a second, many of them just that.
fn durations(random: &mut Random, samples: u32, scale: u32) -> Vec<u32> {
    let least = scale.div_ceil(30);
    let other = least + random.up_to(9);
    (0..samples).map(|_| random.one(&[least, other])).collect()
}

/// A track that keeps the rules but for the offsets of its chunks.
fn track(random: &mut Random, id: u32) -> Track {
    let samples = random.one(&[1, 2, 4, 9, 249, 250, 251, 500, 501]);
    let scale = random.one(&[1, 30, 600, 601, 30_000, 44_100]);
    let durations = durations(random, samples, scale);
    let dealt = deal(random, usize::try_from(samples).unwrap());
    let total = durations.iter().sum();
    Track {
        id,
        scale,
        duration: total,
        stts: entries(random, &durations),
        stsc: (1..).zip(&dealt).map(|(chunk, samples)| (chunk, *samples, 1)).collect(),
        stsz: Sizes::Each((0..samples).map(|_| 1 + random.up_to(9)).collect()),
        stco: vec![0; dealt.len()],
        stss: sync_samples(random, samples),
        edits: if random.once_in(2) { edits(&[(1, -1)]) } else { None },
        ..w_track()
    }
}

/// Chunks in rising order from a place on, some just after the one before. Answers the end of the last.
fn place_chunks(random: &mut Random, track: &mut Track, begin: u32) -> u32 {
    let each = chunk_bytes(track);
    let mut next = begin;
    for (offset, bytes) in track.stco.iter_mut().zip(each) {
        *offset = next + random.one(&[0, 0, 1, 5]);
        next = *offset + u32::try_from(bytes).unwrap();
    }
    next
}

/// Breaks a rule after the first in a track, or nearly: where the track is too short for it, and at limits, the rule may be kept.
fn spoil(random: &mut Random, track: &mut Track, rule: usize) {
    let samples: u32 = track.stts.iter().map(|entry| entry.0).sum();
    match rule {
        2 => track.edits = edits(&[(1, -1), (1, -1)]),
        3 => track.descriptions.push(picture(1, 1)),
        4 => track.ctts = Some(vec![(samples, 0)]),
        5 => track.stss = Some((1 + random.up_to(1)..=samples).step_by(random.one(&[250, 251, 600])).collect()),
        6 => {
            if let Sizes::Each(sizes) = &mut track.stsz {
                let place = random.below(sizes.len());
                sizes[place] = 0;
            }
        }
        7 => {
            let place = random.below(track.stts.len());
            track.stts[place].1 = 0;
        }
        8 => {
            let place = random.below(track.stco.len());
            let before = if place == 0 { 0 } else { track.stco[place - 1] };
            track.stco[place] = random.one(&[track.stco[place].saturating_sub(1), before, 0]);
        }
        _ => {
            let place = random.below(track.stts.len());
            let duration = track.stts[place].1;
            track.stts[place].1 = random.one(&[duration.saturating_sub(1), duration, 1]);
        }
    }
}

/// Breaks the first rule: a track too many, one of another subtype, or none at all.
fn spoil_tracks(random: &mut Random, tracks: &mut Vec<Track>) {
    match random.below(3) {
        0 => tracks.clear(),
        1 => {
            let place = random.below(tracks.len());
            tracks[place].subtype = random.one(&[*b"soun", *b"VIDE", *b"text"]);
        }
        _ => {
            while tracks.len() < 3 {
                let id = count(tracks.len()) + 100;
                tracks.push(Track { id, ..tracks[0].clone() });
            }
        }
    }
}

/// Such a film, accepted.
pub fn quay(random: &mut Random) -> Vec<u8> {
    let ids = random.one(&[[1, 2], [2, 1], [u32::MAX, 7]]);
    let number = 1 + random.below(2);
    let mut tracks: Vec<Track> = ids[..number].iter().map(|id| track(random, *id)).collect();
    let rules: Vec<usize> = (0..random.one(&[0, 1, 1, 2])).map(|_| 1 + random.below(9)).collect();
    // Chunks may lie anywhere, in the moov too.
    let begin = random.up_to(2000);
    let ends: Vec<u32> = tracks.iter_mut().map(|track| place_chunks(random, track, begin)).collect();
    for rule in rules {
        if tracks.is_empty() {
            break;
        }
        let place = random.below(tracks.len());
        match rule {
            1 => spoil_tracks(random, &mut tracks),
            _ => spoil(random, &mut tracks[place], rule),
        }
    }
    let end = ends.into_iter().max().unwrap();
    movie(&tracks).file_of(usize::try_from(end).unwrap()).bytes()
}
