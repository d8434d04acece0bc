//! Tracks opened once, and their indices: the answers are those of the questions that judge the film each time, by both ways in.
use chaldoref::{
    raw, AnySlip, ByteRange, Film, MediaTime, Moov, Movie, MovieTime, Opened, Refusal, Shown, Track, TrackId,
};
use reference::film::{self, w_movie, w_track};
use reference::made::empty_track;
use std::io::Cursor;
use std::ops::Range;

const ONE: TrackId = TrackId(1);

/// W with an empty edit, composition times and one sync sample, and a track without samples.
fn edited() -> Vec<u8> {
    let track = film::Track {
        ctts: Some(vec![(1, -5), (3, 7)]),
        stss: Some(vec![4]),
        edits: Some(vec![(60, -1, 65536), (60, 24, 65536)]),
        ..w_track()
    };
    film::Movie { tracks: vec![track, empty_track(2)], ..w_movie() }.file_of(4096).bytes()
}

/// A track of W's kind with seven samples in each of so many chunks, each with numbers of its own.
fn long(chunks: u32) -> Vec<u8> {
    let samples = 7 * chunks;
    let track = film::Track {
        duration: (0..samples).map(|n| n % 3).sum(),
        stts: (0..samples).map(|n| (1, n % 3)).collect(),
        ctts: Some((0..samples).map(|n| (1, 2 - i32::try_from(n % 5).unwrap())).collect()),
        stsc: vec![(1, 7, 1)],
        stsz: film::Sizes::Each((0..samples).map(|n| n % 11).collect()),
        stco: (0..chunks).map(|chunk| 900 + 100 * (chunk % 30)).collect(),
        stss: Some((1..=samples).step_by(2).collect()),
        ..w_track()
    };
    film::Movie { tracks: vec![track], ..w_movie() }.file_of(65_536).bytes()
}

/// The stored films of the repository, and those made here.
fn films() -> Vec<Vec<u8>> {
    let stored = ["w", "two-hoses", "w-edits"].map(|name| std::fs::read(format!("../../films/{name}.mov")).unwrap());
    stored.into_iter().chain([edited(), long(1), long(100)]).collect()
}

fn moov_of(file: &[u8]) -> Moov {
    Moov::read(Cursor::new(file)).unwrap()
}

/// The two places of a question about a time, or the number of its refusal. The film is judged for it.
macro_rules! judged {
    ($film:expr, $whole:ident, $alone:ident, $id:expr, $t:expr) => {{
        let mut places = [0_u64; 2];
        let to = places.as_mut_ptr();
        // SAFETY: slices' own pointers and lengths.
        let number = unsafe {
            match $film {
                Film::Whole(file) => raw::$whole(file.as_ptr(), file.len(), $id, $t, to, 2),
                Film::Moov { moov, length } => raw::$alone(moov.as_ptr(), moov.len(), length, $id, $t, to, 2),
            }
        };
        if number == 0 {
            Ok(places)
        } else {
            Err(Refusal::from_number(number).unwrap())
        }
    }};
}

fn same_samples(movie: &Movie, track: &Track) {
    let opened = movie.opened(track.id).unwrap();
    let indexed = opened.indexed().unwrap();
    for (n, sample) in (1..).zip(movie.samples(track.id).unwrap()) {
        assert_eq!([movie.sample(track.id, n), opened.sample(n), indexed.sample(n)], [Ok(sample); 3], "sample {n}");
        assert_eq!(movie.sample_range(track.id, n), Ok(sample.range()));
        assert_eq!(opened.samples_from(n).unwrap().next(), Some(sample), "from sample {n}");
    }
    assert!(opened.samples().eq(movie.samples(track.id).unwrap()));
    for n in [0, track.samples + 1, u32::MAX] {
        assert_eq!([movie.sample(track.id, n), opened.sample(n), indexed.sample(n)], [Err(Refusal::Outside); 3]);
        assert_eq!(movie.sample_range(track.id, n), Err(Refusal::Outside));
        assert_eq!(opened.samples_from(n).err(), Some(Refusal::Outside));
    }
}

fn same_times(movie: &Movie, track: &Track) {
    let (film, id) = (movie.film(), track.id.0);
    let opened = movie.opened(track.id).unwrap();
    let indexed = opened.indexed().unwrap();
    for t in (0..track.total.0 + 2).chain([u32::MAX]) {
        let (media, shown) = (MediaTime(t), MovieTime(t));
        let at = judged!(film, chaldoref_sample_at, chaldoref_moov_sample_at, id, t);
        let asked = [movie.sample_at(track.id, media), opened.sample_at(media), indexed.sample_at(media)];
        for asked in asked.map(|at| at.map(|at| [at.sample.into(), at.entry.into()])) {
            assert_eq!(asked, at, "media time {t}");
        }
        let time = judged!(film, chaldoref_media_time, chaldoref_moov_media_time, id, t);
        let places = |shown| match shown {
            Shown::At(media) => [1, media.0.into()],
            Shown::Nothing => [0, 0],
        };
        for asked in [movie.media_time(track.id, shown), opened.media_time(shown)] {
            assert_eq!(asked.map(places), time, "movie time {t}");
        }
    }
}

/// The pairs are those that the slip of the same stretch has.
fn same_stretch(movie: &Movie, opened: &Opened, time: Range<MediaTime>) {
    let slip = movie.write_slip(opened.id(), time.clone()).map(|slip| AnySlip::read(&slip).unwrap());
    let pairs = slip.map(|slip| (slip.bytes(), slip.pairs));
    for stretch in [movie.stretch(opened.id(), time.clone()), opened.stretch(time.clone())] {
        assert_eq!(stretch.map(|stretch| (stretch.bytes, stretch.pairs)), pairs, "{time:?}");
    }
    let Ok((bytes, pairs)) = pairs else { return };
    let left = ByteRange { offset: 7, length: 7 };
    let mut room = vec![left; pairs.len() + 1];
    let size = opened.stretch_into(time.clone(), &mut room).unwrap();
    assert_eq!(
        (size.pairs, size.bytes, &room[..pairs.len()], room[pairs.len()]),
        (pairs.len(), bytes, &pairs[..], left)
    );
    let mut room = vec![left; pairs.len() - 1];
    assert_eq!(opened.stretch_into(time, &mut room), Err(Refusal::NoRoom));
    assert!(room.iter().all(|pair| *pair == left));
}

fn same_stretches(movie: &Movie, track: &Track) {
    let opened = movie.opened(track.id).unwrap();
    let times = [0, 1, 24, 25, 71, track.total.0 / 2, track.total.0 - track.total.0.min(1), track.total.0, u32::MAX];
    for a in times {
        for b in times {
            same_stretch(movie, &opened, MediaTime(a)..MediaTime(b));
        }
    }
}

#[test]
fn the_answers_are_those_of_the_questions_that_judge() {
    for file in films() {
        let moov = moov_of(&file);
        for movie in [Movie::open(&file).unwrap(), Movie::open(&moov).unwrap()] {
            for track in movie.tracks() {
                assert_eq!(movie.opened(track.id).unwrap().id(), track.id);
                same_samples(&movie, track);
                same_times(&movie, track);
                same_stretches(&movie, track);
            }
        }
    }
}

#[test]
fn a_track_that_is_not_there() {
    let (file, none) = (edited(), TrackId(3));
    let moov = moov_of(&file);
    for movie in [Movie::open(&file).unwrap(), Movie::open(&moov).unwrap()] {
        assert_eq!(movie.opened(none).err(), Some(Refusal::NoTrack));
        assert_eq!(movie.sample(none, 0), Err(Refusal::NoTrack));
        assert_eq!(movie.sample_range(none, 0), Err(Refusal::NoTrack));
        assert_eq!(movie.sample_at(none, MediaTime(u32::MAX)), Err(Refusal::NoTrack));
        assert_eq!(movie.media_time(none, MovieTime(u32::MAX)), Err(Refusal::NoTrack));
        assert_eq!(movie.stretch(none, MediaTime(1)..MediaTime(0)), Err(Refusal::NoTrack));
        assert_eq!(movie.stretch_into(none, MediaTime(0)..MediaTime(1), &mut []), Err(Refusal::NoTrack));
    }
}

/// They borrow what was lent and not the movie.
#[test]
fn they_outlive_the_movie() {
    let file = edited();
    let (opened, indexed) = {
        let opened = Movie::open(&file).unwrap().opened(ONE).unwrap();
        (opened, opened.indexed().unwrap())
    };
    assert_eq!(
        [opened.sample(4), indexed.clone().sample(4), indexed.opened().sample(4)].map(|s| s.unwrap().offset),
        [900; 3]
    );
    assert_eq!(format!("{opened:?} {indexed:?}"), "Opened { id: TrackId(1), .. } Indexed { id: TrackId(1), .. }");
}

/// Threads share a movie, and the handle that the first of them has it keep; a copy of the movie has its own.
#[test]
fn threads_share_a_movie() {
    let file = long(100);
    let movie = Movie::open(&file).unwrap();
    let other = movie.clone();
    std::thread::scope(|scope| {
        for first in 1..=8 {
            let movie = &movie;
            scope.spawn(move || (first..=700).step_by(8).for_each(|n| assert!(movie.sample(ONE, n).is_ok())));
        }
    });
    assert_eq!(movie.sample(ONE, 700), other.sample(ONE, 700));
    assert_eq!(movie.clone().sample(ONE, 701), Err(Refusal::Outside));
}
