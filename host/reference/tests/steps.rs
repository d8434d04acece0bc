//! Document 02, "Stepping through a hose film".
use reference::film::*;
use reference::maker::{self, Random};
use reference::movie::refusals::read;
use reference::movie::tables::Movie as Written;
use reference::movie::*;

/// All that steps hand back from a position on, until they are done.
fn steps(movie: &Written, mut from: Position) -> Vec<Sample> {
    let mut all = Vec::new();
    while let Step::Next(sample, position) = movie.step(from) {
        // "each step itself moves the position on"
        assert_ne!(position, from);
        all.push(sample);
        from = position;
    }
    all
}

#[test]
fn film_w_is_stepped_through() {
    let film = w().bytes();
    let (refusal, mut position) = start_at(&film, 1, 2);
    assert_eq!(refusal, 0);
    for (offset, size) in [(1100, 50), (1150, 0), (900, 70)] {
        let Step::Next(sample, moved) = step(&film, position) else {
            panic!("done before the end");
        };
        assert_eq!((sample.offset, sample.size), (offset, size));
        position = moved;
    }
    // "A step after sample N answers done", and the next one too.
    assert_eq!([step(&film, position), step(&film, position)], [Step::Done, Step::Done]);
}

#[test]
fn refusals_of_a_start() {
    let film = w().bytes();
    let refused = |film: &[u8], id, n| {
        let (number, position) = start_at(film, id, n);
        assert_eq!(position, Position::default());
        number
    };
    // "15 for a start outside 1 to N"
    assert_eq!([0, 5, u32::MAX].map(|n| refused(&film, 1, n)), [15; 3]);
    assert_eq!([0, 2].map(|id| refused(&film, id, 1)), [14; 2]);
    // "the file's, 14, then 15"
    assert_eq!(refused(&film, 2, 0), 14);
    let mut movie = w_movie();
    movie.tracks[0].stco[1] = 4027;
    assert_eq!(refused(&movie.file_of(4096).bytes(), 2, 0), 12);
    // A stored duration that is off stops no player.
    movie.tracks[0] = Track { duration: 121, ..w_track() };
    assert_eq!(start_at(&movie.file_of(4096).bytes(), 1, 4).0, 0);
}

#[test]
fn steps_answer_as_the_sample_question_does() {
    let mut met = 0;
    for index in 0..300 {
        let movie = read(&maker::valid(&mut Random::of(31, index))).unwrap();
        for track in &movie.tracks {
            let id = u32::try_from(track.tables.id).unwrap();
            let n = u32::try_from(track.samples.len()).unwrap();
            for start in [1, 2, n / 2, n].into_iter().filter(|start| (1..=n).contains(start)) {
                let asked: Vec<Sample> = (start..=n).map(|n| movie.sample(id, n).unwrap()).collect();
                assert_eq!(steps(&movie, movie.start_at(id, start).unwrap()), asked, "film {index}, track {id}");
                met += 1;
            }
            assert_eq!([0, n + 1].map(|start| movie.start_at(id, start)), [Err(15); 2]);
        }
    }
    assert!(met > 500);
}

#[test]
fn positions_of_other_films_are_safe() {
    let film = w().bytes();
    let (_, first) = start_at(&film, 1, 1);
    let mut refused = film.clone();
    refused.truncate(100);
    assert_eq!(step(&refused, first), Step::Done);
    for id in [0, 1, 2, u32::MAX] {
        for next in [0, 1, 4, 5, u32::MAX] {
            let stepped = step(&film, Position { id, next });
            assert_eq!(stepped == Step::Done, sample(&film, id, next).0 != 0);
        }
    }
}
