//! The second with the highest bit rate: its samples and its media time.
use chaldoref::{Feature, FourCC, MediaTime, Movie, Peak, Refusal, TrackId};
use reference::film::{self, w_movie, w_track, Sizes};
use std::ops::RangeInclusive;

const ONE: TrackId = TrackId(1);

/// A film of one track with that scale: a sample for each duration and size, all in one chunk.
fn film(subtype: &[u8; 4], scale: u32, samples: &[(u32, u32)]) -> Vec<u8> {
    let track = film::Track {
        subtype: *subtype,
        scale,
        duration: samples.iter().map(|(duration, _)| duration).sum(),
        stts: samples.iter().map(|(duration, _)| (1, *duration)).collect(),
        stsc: vec![(1, samples.len().try_into().unwrap(), 1)],
        stsz: Sizes::Each(samples.iter().map(|(_, size)| *size).collect()),
        stco: vec![1000],
        ..w_track()
    };
    film::Movie { tracks: vec![track], ..w_movie() }.file_of(4096).bytes()
}

fn peak(samples: RangeInclusive<u32>, a: u32, b: u32) -> Result<Peak, Refusal> {
    Ok(Peak::new(samples, MediaTime(a)..MediaTime(b)))
}

#[test]
fn a_burst() {
    let file = film(b"vide", 10, &[(5, 1), (5, 1), (5, 60), (4, 70), (1, 80), (20, 9)]);
    let movie = Movie::open(&file).unwrap();
    assert_eq!(movie.feature(ONE, Feature::HighestVideoBitRate), Ok(8 * 210));
    assert_eq!(movie.peak(ONE, Feature::HighestVideoBitRate), peak(3..=5, 10, 20));
    assert_eq!(movie.peak(ONE, FourCC::from_bytes(*b"mvbr")), peak(3..=5, 10, 20));
    for other in [Feature::HighestAudioBitRate, Feature::AverageVideoBitRate, Feature::GreatestPicture] {
        assert_eq!(movie.peak(ONE, other), Err(Refusal::NotComputed));
    }
}

#[test]
fn sound() {
    let file = film(b"soun", 10, &[(0, 50), (10, 1), (0, 90), (10, 2), (0, 99)]);
    let movie = Movie::open(&file).unwrap();
    assert_eq!(movie.feature(ONE, Feature::HighestAudioBitRate), Ok(8 * 92));
    assert_eq!(movie.peak(ONE, Feature::HighestAudioBitRate), peak(3..=4, 10, 20));
    assert_eq!(movie.peak(ONE, Feature::HighestVideoBitRate), Err(Refusal::NotComputed));
    assert_eq!(movie.feature(ONE, Feature::HighestVideoBitRate), Err(Refusal::NotComputed));
}

#[test]
fn a_track_shorter_than_a_second() {
    let file = film(b"vide", 10, &[(5, 1), (4, 2), (0, 3)]);
    assert_eq!(Movie::open(&file).unwrap().peak(ONE, Feature::HighestVideoBitRate), peak(1..=3, 0, 9));
}

#[test]
fn where_the_media_times_end() {
    let last = u32::MAX;
    let file = film(b"vide", last, &[(last - 1, 1), (1, 2)]);
    assert_eq!(Movie::open(&file).unwrap().peak(ONE, Feature::HighestVideoBitRate), peak(1..=2, 0, last));
    let still = film(b"vide", 10, &[(0, 1), (0, 2)]);
    let movie = Movie::open(&still).unwrap();
    assert_eq!(movie.peak(ONE, Feature::HighestVideoBitRate), Err(Refusal::NotComputed));
}
