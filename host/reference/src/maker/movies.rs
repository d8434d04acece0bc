//! Movies whose tables agree: their tracks, edit lists and profiles.
use super::edits::edits;
use super::random::Random;
use super::tables::{count, sample_count, scale, track_of};
use crate::film::*;

/// Records of a profile, some with code 0.
pub fn records(random: &mut Random) -> Vec<[u32; 4]> {
    let many = if random.once_in(10) { 64 } else { 4 };
    let number = random.one(&[0, 1, 2, 3, many]);
    (0..number)
        .map(|_| {
            let code = random.one(&[0, u32::from_be_bytes(*b"avvb"), u32::from_be_bytes(*b"tvsz"), u32::MAX]);
            [random.one(&[0, u32::MAX]), random.number(), code, random.number()]
        })
        .collect()
}

fn profile(random: &mut Random) -> Option<Vec<[u32; 4]>> {
    random.once_in(4).then(|| records(random))
}

/// IDs that differ and are not 0: the first numbers, the last, or some between, in order or not.
fn ids(random: &mut Random, tracks: usize) -> Vec<u32> {
    let most = u32::MAX - count(tracks);
    let before = random.up_to(most);
    let before = random.one(&[0, 0, before, most]);
    let mut ids: Vec<u32> = (1..).take(tracks).map(|id| before + id).collect();
    if random.once_in(3) {
        random.shuffle(&mut ids);
    }
    ids
}

/// A track of a movie with that scale.
fn track(random: &mut Random, id: u32, samples: usize, movie_scale: u32) -> Track {
    let mut track = track_of(random, id, samples);
    if random.once_in(3) {
        track.scale = movie_scale;
    }
    track.edits = edits(random, track.duration, track.scale, movie_scale);
    track.profile = profile(random);
    track
}

/// A movie of so many tracks, of which the first has samples if that is asked.
pub fn movie_of(random: &mut Random, tracks: usize, has_samples: bool) -> Movie {
    let scale = scale(random);
    let mut list = Vec::new();
    for id in ids(random, tracks) {
        let samples = sample_count(random);
        let least = usize::from(has_samples && list.is_empty());
        list.push(track(random, id, samples.max(least), scale));
    }
    Movie { scale, duration: random.number(), profile: profile(random), tracks: list }
}

/// How many tracks a film has.
pub fn track_count(random: &mut Random) -> usize {
    if random.once_in(25) {
        random.one(&[4, 8, 15, 16])
    } else {
        random.one(&[0, 1, 1, 1, 1, 1, 2, 2, 2, 3])
    }
}
