//! Films at the limits of samples and chunks, one over them, and with totals that 32 bits do not hold.
use super::layout::film_of;
use super::movies::movie_of;
use super::random::Random;
use super::tables::{chunk_bytes, count};
use crate::film::*;
use crate::made::{movie, w_with};

/// The most samples, and the most chunks, of a track.
const MOST: u32 = 1_048_576;

fn long(n: u32) -> usize {
    usize::try_from(n).unwrap()
}

/// A film of one track, whose tables agree.
fn film(track: Track) -> Vec<u8> {
    let most = chunk_bytes(&track).into_iter().max().unwrap_or(0);
    let body = vec![7; usize::try_from(most).unwrap()];
    file(vec![movie(&[track]).moov(), atom("mdat", &body)]).bytes()
}

/// A film of one track and no mdat.
fn alone(track: Track) -> Vec<u8> {
    movie(&[track]).file().bytes()
}

/// W's track with so many samples of two bytes in a single chunk, and a change.
fn many_samples(samples: u32, change: impl FnOnce(&mut Track)) -> Track {
    w_with(|track| {
        track.duration = samples;
        track.stts = vec![(samples, 1)];
        track.stsc = vec![(1, samples, 1)];
        track.stsz = Sizes::Common(2, samples);
        track.stco = vec![0];
        change(track);
    })
}

/// So many chunks of one sample each, at offset 0.
fn many_chunks(chunks: u32, size: u32) -> Track {
    many_samples(chunks, |track| {
        track.stsc = vec![(1, 1, 1)];
        track.stsz = Sizes::Common(size, chunks);
        track.stco = vec![0; long(chunks)];
    })
}

/// Each table with as many entries as it can have: durations, offsets and chunks of one sample, all of them sync.
fn many_entries(samples: u32) -> Track {
    many_samples(samples, |track| {
        let each = |i: u32| (1, i % 3);
        track.stts = (0..samples).map(each).collect();
        track.duration = track.stts.iter().map(|entry| entry.1).sum();
        track.ctts = Some((0..samples).map(|i| (1, i32::try_from(i % 5).unwrap() - 2)).collect());
        track.stss = Some((1..=samples).collect());
        track.stsc = (1..=samples).map(|chunk| (chunk, 1, 1)).collect();
        track.stsz = Sizes::Each((0..samples).map(|i| i % 7).collect());
        track.stco = (0..samples).map(|i| i % 1000).collect();
    })
}

/// One size too many, all there, and as many chunks as there may be.
fn one_size_over() -> Track {
    Track { stsz: Sizes::Each(vec![0; long(MOST) + 1]), ..many_chunks(MOST, 1) }
}

/// One chunk too many, and as many samples as there may be.
fn one_chunk_over() -> Track {
    Track { stco: vec![0; long(MOST) + 1], ..many_chunks(MOST, 1) }
}

/// Chunks that overlap so far that the bytes of a stretch are more than 2^32; with that scale the numerator of avvb is more than 2^64.
fn overlapping(scale: u32) -> Track {
    Track { scale, ..many_chunks(70_000, 70_000) }
}

/// The same, the first half of the samples lasting twice as long as the rest: with a time scale of 7,600 the second with most bits, which is later, has
/// hardly less than 2^32, with 8,000 more. The first second has far less.
fn later_peak(scale: u32) -> Track {
    Track { duration: 105_000, stts: vec![(35_000, 2), (35_000, 1)], ..overlapping(scale) }
}

/// How many films there are.
pub const FILMS: usize = 12;

/// One of them.
pub fn limit(random: &mut Random, which: usize) -> Vec<u8> {
    match which {
        0 => film(many_samples(MOST, |_| ())),
        1 => film(many_samples(MOST + 1, |_| ())),
        2 => film(many_chunks(MOST, 1)),
        3 => alone(one_chunk_over()),
        4 => film(many_entries(MOST)),
        5 => alone(one_size_over()),
        6 => film(overlapping(600)),
        7 => film(overlapping(u32::MAX)),
        8 => film(many_chunks(MOST, 5_000)),
        9 => film(later_peak(7_600)),
        10 => film(later_peak(8_000)),
        _ => sixteen_large_tracks(random),
    }
}

/// Sixteen tracks of thousands of samples.
fn sixteen_large_tracks(random: &mut Random) -> Vec<u8> {
    let mut movie = movie_of(random, 0, false);
    for id in 1..=16 {
        let samples = 2000 + random.below(2000);
        movie.tracks.push(super::tables::track_of(random, id, samples));
    }
    let bytes: Vec<Vec<u64>> = movie.tracks.iter().map(chunk_bytes).collect();
    let film = film_of(random, &movie, &bytes).bytes();
    assert!(count(film.len()) > 100_000);
    film
}
