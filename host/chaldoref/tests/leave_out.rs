//! Films read with parts left out: nothing else changes.
use chaldoref::{Feature, LeaveOut, MediaTime, Moov, Movie, MovieTime, Refusal, Track, TrackId};
use reference::film::{atom, file, w_movie, w_track, Node, Size};
use reference::made::{edits, movie, track};
use reference::maker::{self, Random};
use std::io::Cursor;

const EDITS: LeaveOut = LeaveOut::Edits;

fn left_out(id: u32) -> LeaveOut {
    LeaveOut::Track(TrackId(id))
}

/// The moovs of accepted films from a seed, and of those that the repository has.
fn moovs() -> Vec<Moov> {
    let made = (0..300).map(|n| maker::valid(&mut Random::of(35, n)));
    let kept = std::fs::read_dir("../../films").unwrap().map(|film| std::fs::read(film.unwrap().path()).unwrap());
    let moovs = made.chain(kept).filter_map(|film| Moov::read(Cursor::new(film)).ok());
    moovs.filter(|moov| Movie::open(moov).is_ok()).collect()
}

/// Whether a feature is taken over what a track's edits show.
fn is_average(feature: &Feature) -> bool {
    matches!(feature, Feature::AverageVideoBitRate | Feature::AverageAudioBitRate)
}

/// What is said of a track and does not depend on its edits.
fn said_of(movie: &Movie, track: &Track) -> String {
    let (id, whole) = (track.id, MediaTime(0)..track.total);
    let samples: Vec<_> = movie.samples(id).unwrap().take(9).collect();
    let at = [0, track.total.0 / 2, track.total.0].map(|t| movie.sample_at(id, MediaTime(t)));
    let features: Vec<_> = Feature::ALL
        .iter()
        .filter(|of| !is_average(of))
        .map(|of| (movie.feature(id, *of), movie.peak(id, *of)))
        .collect();
    let stretch = (movie.stretch(id, whole.clone()), movie.write_slip(id, whole));
    format!("{samples:?} {at:?} {features:?} {stretch:?} {:?}", movie.profile(id))
}

/// The same with what does.
fn all_said_of(movie: &Movie, track: &Track) -> String {
    let averages: Vec<_> = Feature::ALL.iter().map(|of| movie.feature(track.id, *of)).collect();
    let mapped = [0, 1, track.total.0 / 2].map(|t| movie.media_time(track.id, MovieTime(t)));
    let checked = (movie.check_profile(track.id), movie.edits(track.id));
    format!("{track:?} {} {averages:?} {mapped:?} {checked:?}", said_of(movie, track))
}

#[test]
fn without_edits_all_else_is_the_same() {
    let mut with_edits = 0;
    for moov in moovs() {
        let copy = moov.leaving_out(&[EDITS]).unwrap();
        let (before, after) = (Movie::open(&moov).unwrap(), Movie::open(&copy).unwrap());
        assert_eq!((before.header(), before.movie_profile()), (after.header(), after.movie_profile()));
        assert_eq!(before.tracks().len(), after.tracks().len());
        for (was, is) in before.tracks().iter().zip(after.tracks()) {
            let mut expected = *was;
            expected.edits = 0;
            assert_eq!(expected, *is);
            assert_eq!(said_of(&before, was), said_of(&after, is));
            assert_eq!(after.edits(is.id), Ok(vec![]));
            with_edits += usize::from(was.edits > 0);
        }
    }
    assert!(with_edits > 100, "{with_edits}");
}

#[test]
fn without_a_track_the_others_are_the_same() {
    let mut tracks = 0;
    for moov in moovs() {
        let before = Movie::open(&moov).unwrap();
        for gone in before.tracks() {
            let copy = moov.leaving_out(&[LeaveOut::Track(gone.id)]).unwrap();
            let after = Movie::open(&copy).unwrap();
            let others: Vec<Track> = before.tracks().iter().filter(|track| track.id != gone.id).copied().collect();
            assert_eq!(after.tracks(), others);
            assert_eq!((before.header(), before.movie_profile()), (after.header(), after.movie_profile()));
            for track in after.tracks() {
                assert_eq!(all_said_of(&before, track), all_said_of(&after, track));
            }
            assert_eq!(after.sample(gone.id, 1), Err(Refusal::NoTrack));
            tracks += 1;
        }
    }
    assert!(tracks > 200, "{tracks}");
}

/// No byte moves: only the names of the atoms that are left out differ.
#[test]
fn only_names_change() {
    for moov in moovs() {
        let all: Vec<LeaveOut> = Movie::open(&moov).unwrap().tracks().iter().map(|t| LeaveOut::Track(t.id)).collect();
        for parts in [&[EDITS][..], &all, &[all.clone(), vec![EDITS]].concat(), &[]] {
            let copy = moov.leaving_out(parts).unwrap();
            assert_eq!((copy.place, copy.length, copy.bytes.len()), (moov.place, moov.length, moov.bytes.len()));
            let differ = (0..moov.bytes.len()).filter(|i| moov.bytes[*i] != copy.bytes[*i]);
            for place in differ {
                let named =
                    |bytes: &[u8], name: &[u8]| (0..4).any(|k| place >= k && bytes[place - k..].starts_with(name));
                assert!(named(&copy.bytes, b"free"));
                assert!(named(&moov.bytes, b"trak") || named(&moov.bytes, b"edts"));
            }
        }
    }
}

#[test]
fn tracks_that_are_not_there() {
    let film = movie(&[track(1, |_| ()), track(7, |_| ())]).file_of(4096).bytes();
    let moov = Moov::read(Cursor::new(&film)).unwrap();
    for parts in [&[left_out(2)][..], &[left_out(1), left_out(0)], &[EDITS, left_out(9)]] {
        assert_eq!(moov.leaving_out(parts), Err(Refusal::NoTrack));
    }
    let ids = |parts: &[LeaveOut]| {
        let copy = moov.leaving_out(parts).unwrap();
        Movie::open(&copy).unwrap().tracks().iter().map(|track| track.id.0).collect::<Vec<u32>>()
    };
    assert_eq!([ids(&[]), ids(&[left_out(1)]), ids(&[left_out(7), EDITS])], [vec![1, 7], vec![7], vec![1]]);
    assert_eq!(ids(&[left_out(1), left_out(7)]), []);
}

/// Films that are refused for what is left out are then read, whatever the form of the moov's size.
#[test]
fn refused_films_are_read() {
    let past_the_end = track(1, |track| track.edits = edits(&[(121, 0)]));
    for size in [Size::True, Size::Wide] {
        let moov = Node { size, ..movie(std::slice::from_ref(&past_the_end)).moov() };
        let film = file(vec![atom("mdat", &[0; 4096]), moov]).bytes();
        let moov = Moov::read(Cursor::new(&film)).unwrap();
        assert_eq!(Movie::open(&moov).unwrap_err(), Refusal::EditList);
        let read = moov.leaving_out(&[EDITS]).unwrap();
        assert_eq!(Movie::open(&read).unwrap().tracks()[0].samples, 4);
    }
}

/// The ID of a track whose header has version 1 stands elsewhere in it.
#[test]
fn a_track_header_of_version_1() {
    let mut moov = movie(&[w_track(), track(2, |_| ())]).moov();
    let mut body = vec![0; 96];
    body[0] = 1;
    body[20..24].copy_from_slice(&9u32.to_be_bytes());
    moov.replace("trak:1 tkhd", atom("tkhd", &body));
    let film = file(vec![moov, atom("mdat", &[0; 4096])]).bytes();
    let moov = Moov::read(Cursor::new(&film)).unwrap();
    assert_eq!(Movie::open(&moov).unwrap_err(), Refusal::LeafVersion);
    assert_eq!(Movie::open(&moov.leaving_out(&[left_out(9)]).unwrap()).unwrap().tracks().len(), 1);
}

/// Sizes that are wrong end the walk.
#[test]
fn any_bytes_are_taken() {
    let whole = Moov::read(Cursor::new(w_movie().file_of(4096).bytes())).unwrap();
    for place in 0..whole.bytes.len() {
        for byte in [0, 1, 7, 255] {
            let mut moov = whole.clone();
            moov.bytes[place] = byte;
            let _ = (moov.leaving_out(&[EDITS]).unwrap(), moov.leaving_out(&[left_out(1)]));
        }
        let mut cut = whole.clone();
        cut.bytes.truncate(place);
        let _ = (cut.leaving_out(&[EDITS]).unwrap(), cut.leaving_out(&[left_out(1)]));
    }
}

#[test]
fn texts() {
    for (text, part) in [("edits", EDITS), ("track=2", left_out(2)), ("track=4294967295", left_out(u32::MAX))] {
        assert_eq!((text.parse(), part.to_string().as_str()), (Ok(part), text));
    }
    for text in ["", "edit", "Edits", "track", "track=", "track=x", "track=+1", "track=4294967296", "2", " edits"] {
        assert!(text.parse::<LeaveOut>().is_err(), "{text}");
    }
}
