//! Document 02, "Closing up wasteful tables": the moov with compact tables, and the film with it in the moov's place.
use chaldoref::{Film, MediaTime, Moov, Movie, Refusal, Sample, Track};
use reference::film::{w_track, Track as Made};
use reference::made::movie as made_movie;
use reference::maker::{self, alone, Random};
use reference::movie::{compact_film, MoovAlone};
use std::io::Cursor;

/// The film with its moov written anew in its place.
fn compacted(file: &[u8]) -> Vec<u8> {
    let movie = Movie::open(file).unwrap();
    let mut after = file.to_vec();
    after[movie.moov_bytes()].copy_from_slice(&movie.compact().unwrap());
    after
}

/// A track, its samples and the slip of the whole of it.
type Said = (Track, Vec<Sample>, Result<Vec<u8>, Refusal>);

fn said<'a>(film: impl Into<Film<'a>>) -> Vec<Said> {
    let movie = Movie::open(film).unwrap();
    let of = |track: &Track| {
        let samples = movie.samples(track.id).unwrap().collect();
        (*track, samples, movie.write_slip(track.id, MediaTime(0)..track.total))
    };
    movie.tracks().iter().map(of).collect()
}

#[test]
fn nothing_else_changes() {
    let mut changed = 0;
    for index in 0..200 {
        let film = maker::valid(&mut Random::of(13, index));
        let after = compacted(&film);
        assert_eq!(after, compact_film(&film).unwrap());
        assert_eq!(said(&after), said(&film));
        assert_eq!(compacted(&after), after);
        changed += usize::from(after != film);
    }
    assert!(changed > 80, "{changed}");
}

#[test]
fn a_moov_alone_is_written_as_in_its_file() {
    for index in 0..100 {
        let film = maker::valid(&mut Random::of(14, index));
        let moov = Moov::read(Cursor::new(&film)).unwrap();
        // A co64 beside the stco is refused 3 by the moov alone.
        if let Ok(alone) = Movie::open(&moov) {
            assert_eq!(alone.moov_bytes(), 0..moov.bytes.len());
            assert_eq!(alone.compact(), Movie::open(&film).unwrap().compact());
        }
        let MoovAlone { moov, length } = alone::valid(&mut Random::of(15, index));
        let film = Film::Moov { moov: &moov, length };
        let after = Movie::open(film).unwrap().compact().unwrap();
        assert_eq!(said(Film::Moov { moov: &after, length }), said(film));
    }
}

#[test]
fn room_that_is_too_short_is_left() {
    let track = Made { stts: vec![(1, 24), (1, 24), (1, 24), (1, 48)], ..w_track() };
    let file = made_movie(&[track]).file_of(4096).bytes();
    let movie = Movie::open(&file).unwrap();
    let length = movie.moov_bytes().len();
    let mut room = vec![7; length - 1];
    assert_eq!(movie.compact_into(&mut room), Err(Refusal::NoRoom));
    assert!(room.iter().all(|byte| *byte == 7));
    let mut room = vec![7; length + 3];
    assert_eq!(movie.compact_into(&mut room), Ok(length));
    assert_eq!(room[length..], [7; 3]);
    assert_eq!(room[..length], movie.compact().unwrap());
    // Two runs are left out, and the free atom in their place is the last of the moov.
    assert_eq!(room[length - 16..length], [&[0, 0, 0, 16][..], b"free", &[0; 8]].concat());
}
