//! Tracks stepped through.
use chaldoref::{Film, Movie, Refusal, Sample, TrackId};
use reference::film::{self, w, w_movie, w_track};
use reference::made::empty_track;
use reference::maker::{limits, Random};

const ONE: TrackId = TrackId(1);

/// What the sample question answers of each sample from one on.
fn asked(movie: &Movie, n: u32) -> Vec<Sample> {
    (n..=movie.track(ONE).unwrap().samples).map(|n| movie.sample(ONE, n).unwrap()).collect()
}

/// A track of W's kind with so many samples, each with numbers of its own.
fn film_of(samples: u32) -> Vec<u8> {
    let track = film::Track {
        duration: (0..samples).map(|n| n % 3).sum(),
        stts: (0..samples).map(|n| (1, n % 3)).collect(),
        ctts: Some((0..samples).map(|n| (1, 2 - i32::try_from(n % 5).unwrap())).collect()),
        stsc: vec![(1, samples, 1)],
        stsz: film::Sizes::Each((0..samples).map(|n| n % 7).collect()),
        stco: vec![900],
        stss: Some((1..=samples).step_by(2).collect()),
        ..w_track()
    };
    film::Movie { tracks: vec![track], ..w_movie() }.file_of(4096).bytes()
}

/// Also where one more is fetched, or one less, than are had at once.
#[test]
fn they_are_those_of_the_sample_question() {
    for count in [1, 2, 63, 64, 65, 128, 200] {
        let film = film_of(count);
        let movie = Movie::open(&film).unwrap();
        for n in [1, count / 2 + 1, count] {
            let samples: Vec<Sample> = movie.samples_from(ONE, n).unwrap().collect();
            assert_eq!(samples, asked(&movie, n), "{count} samples from {n}");
        }
        assert!(movie.samples(ONE).unwrap().eq(asked(&movie, 1)));
        assert_eq!(movie.samples_from(ONE, 0).err(), Some(Refusal::Outside));
        assert_eq!(movie.samples_from(ONE, count + 1).err(), Some(Refusal::Outside));
    }
}

#[test]
fn by_the_moov_alone() {
    let film = film_of(100);
    let size = u32::from_be_bytes(*film.first_chunk().unwrap()) as usize;
    let whole = Movie::open(&film).unwrap();
    let alone = Movie::open(Film::Moov { moov: &film[..size], length: 4096 }).unwrap();
    assert!(whole.samples(ONE).unwrap().eq(alone.samples(ONE).unwrap()));
    assert_eq!(alone.samples_from(ONE, 101).err(), Some(Refusal::Outside));
}

#[test]
fn how_many_are_left_is_known() {
    let film = film_of(100);
    let mut samples = Movie::open(&film).unwrap().samples_from(ONE, 11).unwrap();
    for left in (1..=90).rev() {
        assert_eq!((samples.len(), samples.size_hint()), (left, (left, Some(left))));
        // A copy goes on by itself.
        assert_eq!(samples.clone().count(), left);
        assert!(samples.next().is_some());
    }
    for _ in 0..3 {
        assert_eq!((samples.len(), samples.next()), (0, None));
    }
    assert_eq!(format!("{samples:?}"), "Samples { left: 0 }");
}

#[test]
fn tracks_without_samples_and_none() {
    let film = film::Movie { tracks: vec![empty_track(1)], ..w_movie() }.file_of(4096).bytes();
    let movie = Movie::open(&film).unwrap();
    assert_eq!(movie.samples(ONE).unwrap().next(), None);
    assert_eq!(movie.samples_from(ONE, 1).err(), Some(Refusal::Outside));
    assert_eq!(movie.samples(TrackId(2)).err(), Some(Refusal::NoTrack));
    assert_eq!(movie.samples_from(TrackId(2), 0).err(), Some(Refusal::NoTrack));
}

/// The iterator borrows what was lent and not the movie.
#[test]
fn it_outlives_the_movie() {
    let film = w().bytes();
    let samples = { Movie::open(&film).unwrap().samples(ONE).unwrap() };
    assert_eq!(samples.map(|sample| sample.size).sum::<u32>(), 220);
}

#[test]
fn the_longest_track() {
    let film = limits::limit(&mut Random::new(1), 4);
    let movie = Movie::open(&film).unwrap();
    let track = *movie.track(ONE).unwrap();
    let mut decode = 0;
    for (n, sample) in (1..).zip(movie.samples(ONE).unwrap()) {
        assert_eq!((sample.decode.0, sample.chunk), (decode, n));
        decode += sample.duration;
        if n % 200_000 == 1 || n == track.samples {
            assert_eq!(movie.sample(ONE, n), Ok(sample));
        }
    }
    assert_eq!((decode, movie.samples(ONE).unwrap().len()), (track.total.0, track.samples as usize));
}
