//! The second way in: the moov alone with the length of its file, read from bytes and from what reads and seeks; and slips of both forms.
use chaldoref::{
    strict_refusal, AnySlip, ByteRange, Edit, Film, FourCC, Moov, Movie, MovieTime, ReadError, Refusal, Slip, TrackId,
};
use chaldoref::{Feature, MediaTime, Track};
use reference::film::{self, atom, file, w, w_movie, w_track, Node, Size};
use reference::maker::{self, alone, Random};
use reference::movie::MoovAlone;
use std::io::{self, Cursor, Read, Seek, SeekFrom};

const ONE: TrackId = TrackId(1);

/// All that is asked of a track.
fn said_of(movie: &Movie, track: &Track) -> String {
    let (id, whole) = (track.id, MediaTime(0)..track.total);
    let samples: Vec<_> =
        (0..=track.samples.min(5) + 1).map(|n| (movie.sample(id, n), movie.sample_range(id, n))).collect();
    let at = [0, track.total.0 / 2].map(|t| (movie.sample_at(id, MediaTime(t)), movie.media_time(id, MovieTime(t))));
    let features: Vec<_> = Feature::ALL.iter().map(|of| (movie.feature(id, *of), movie.peak(id, *of))).collect();
    let stretch = (movie.stretch(id, whole.clone()), movie.write_slip(id, whole));
    format!("{samples:?} {at:?} {features:?} {stretch:?} {:?} {:?}", movie.profile(id), movie.edits(id))
}

fn said<'a>(film: impl Into<Film<'a>>) -> String {
    let film = film.into();
    let movie = Movie::open(film).map(|movie| {
        let tracks: Vec<_> = movie.tracks().iter().map(|track| (*track, said_of(&movie, track))).collect();
        (tracks, movie.header(), movie.movie_profile())
    });
    format!("{movie:?} {:?}", strict_refusal(film))
}

/// Films from a seed that have no co64, which is a table only where the moov is lent alone.
fn films() -> impl Iterator<Item = Vec<u8>> {
    let film = |n| maker::film(&mut Random::of(9, n));
    (0..400).map(film).filter(|film| !film.windows(4).any(|kind| kind == b"co64"))
}

#[test]
fn both_ways_answer_the_same() {
    let mut accepted = 0;
    for film in films() {
        // A film whose top level is refused has no moov to be asked.
        let Ok(moov) = Moov::read(Cursor::new(&film)) else { continue };
        assert_eq!(said(&moov), said(&film));
        accepted += usize::from(Movie::open(&film).is_ok());
    }
    assert!(accepted > 100, "{accepted}");
}

#[test]
fn what_is_read_is_the_moov() {
    let mut refused = [0; 4];
    for film in films() {
        match Moov::read(Cursor::new(&film)) {
            Ok(moov) => {
                let expected = alone::moov_of(&film).unwrap();
                assert_eq!((&moov.bytes[..], moov.length), (expected.moov, expected.length));
                assert_eq!(film[moov.place as usize..][..moov.bytes.len()], moov.bytes);
                refused[0] += 1;
            }
            Err(ReadError::Refused(refusal)) => {
                // The whole file is refused so too, or 2 for the inside of one of several moovs.
                let whole = Movie::open(&film).unwrap_err();
                assert!(
                    refusal == whole || (refusal, whole) == (Refusal::AtomCount, Refusal::AtomSize),
                    "{refusal:?} {whole:?}"
                );
                refused[refusal.number() as usize] += 1;
            }
            Err(error) => panic!("{error}"),
        }
    }
    assert!(refused[0] > 100 && refused[2] > 5 && refused[3] > 0, "{refused:?}");
}

#[test]
fn fragments() {
    let mut found = [0; 4];
    for n in 0..100 {
        let film = maker::fragmented(&mut Random::of(18, n));
        let whole = Movie::open(&film).unwrap().fragments();
        let moov = Moov::read(Cursor::new(&film)).unwrap();
        // A co64 beside the stco is refused 3 by the moov alone.
        if let Ok(alone) = Movie::open(&moov) {
            assert_eq!((alone.fragments().announced, alone.fragments().present), (whole.announced, false));
        }
        assert_eq!((moov.fragments > 0, moov.fragment_bytes), (whole.present, 20 * moov.fragments));
        found[usize::from(whole.announced) + 2 * usize::from(whole.present)] += 1;
    }
    assert!(found.iter().all(|films| *films > 10), "{found:?}");
}

#[test]
fn films_that_are_too_long_to_be_made() {
    let mut wide = 0;
    for n in 0..200 {
        let MoovAlone { moov, length } = alone::valid(&mut Random::of(10, n));
        let movie = Movie::open(Film::Moov { moov: &moov, length }).unwrap();
        for track in movie.tracks().iter().filter(|track| track.total > MediaTime(0) && !track.has_other_duration()) {
            let stretch = movie.stretch(track.id, MediaTime(0)..track.total).unwrap();
            assert!(stretch.pairs.iter().all(|pair| pair.offset + pair.length <= length));
            let Ok(bytes) = movie.write_slip(track.id, MediaTime(0)..track.total) else { continue };
            let slip = AnySlip::read(&bytes).unwrap();
            assert_eq!(
                (slip.id, slip.film_time(), &slip.pairs),
                (track.id.0.into(), track.total.0.into(), &stretch.pairs)
            );
            let is_wide = stretch.pairs.iter().any(|pair| pair.offset.max(pair.length) >= 1 << 32);
            assert_eq!((slip.form, Slip::read(&bytes).is_err()), if is_wide { (2, true) } else { (1, false) });
            wide += usize::from(is_wide);
        }
    }
    assert!(wide > 20, "{wide}");
}

#[test]
fn lengths_at_the_limits() {
    let moov = w_movie().moov().bytes();
    let refused = |moov: &[u8], length| Movie::open(Film::Moov { moov, length }).err();
    assert_eq!(refused(&moov, 4096), None);
    assert_eq!(refused(&moov, chaldoref::MAX_LENGTH), None);
    assert_eq!(refused(&moov, chaldoref::MAX_LENGTH + 1), Some(Refusal::FileTooLong));
    assert_eq!(refused(&moov, moov.len() as u64 - 1), Some(Refusal::FileTooLong));
    assert_eq!(refused(&moov, 1149), Some(Refusal::PastEnd));
    assert_eq!(refused(&w().bytes(), 4096), Some(Refusal::AtomSize));
    assert_eq!(refused(&[], 0), Some(Refusal::AtomSize));
}

/// A film whose bytes are zeros but for some at the beginning and at the end.
struct Sparse {
    begin: Vec<u8>,
    end: Vec<u8>,
    length: u64,
    place: u64,
    read: u64,
}

impl Read for Sparse {
    fn read(&mut self, room: &mut [u8]) -> io::Result<usize> {
        let last = self.length - self.end.len() as u64;
        for byte in room.iter_mut() {
            let of = |bytes: &[u8], at: u64| bytes.get(at as usize).copied().unwrap_or(0);
            *byte = if self.place < last { of(&self.begin, self.place) } else { of(&self.end, self.place - last) };
            self.place += 1;
        }
        self.read += room.len() as u64;
        Ok(room.len())
    }
}

impl Seek for Sparse {
    fn seek(&mut self, to: SeekFrom) -> io::Result<u64> {
        self.place = match to {
            SeekFrom::Start(place) => place,
            SeekFrom::End(0) => self.length,
            _ => unreachable!(),
        };
        Ok(self.place)
    }
}

#[test]
fn of_a_long_film_little_is_read() {
    let (length, end) = (100_000_000_000, w_movie().moov().bytes());
    let place = length - end.len() as u64;
    let begin = Node { size: Size::WideSays(place), ..atom("mdat", &[]) }.bytes();
    let mut film = Sparse { begin, end, length, place: 0, read: 0 };
    let mut seen = Vec::new();
    let moov = Moov::read_seeing(&mut film, |kind, place| seen.push((kind, place))).unwrap();
    assert_eq!((moov.place, moov.length, moov.bytes.len()), (place, length, film.end.len()));
    assert_eq!(seen, [(FourCC::from(*b"mdat"), 0), (FourCC::from(*b"moov"), place)]);
    assert!(film.read < 20_000, "{}", film.read);
    assert_eq!(Movie::open(&moov).unwrap().sample(ONE, 4).unwrap().offset, 900);
    assert!(format!("{moov:?}").starts_with("Moov { bytes: "), "{moov:?}");
}

#[test]
fn a_film_that_cannot_be_read() {
    struct Shorter(Cursor<Vec<u8>>);
    impl Read for Shorter {
        fn read(&mut self, _: &mut [u8]) -> io::Result<usize> {
            Ok(0)
        }
    }
    impl Seek for Shorter {
        fn seek(&mut self, to: SeekFrom) -> io::Result<u64> {
            self.0.seek(to)
        }
    }
    let error = Moov::read(Shorter(Cursor::new(w().bytes()))).unwrap_err();
    assert!(matches!(&error, ReadError::Io(error) if error.kind() == io::ErrorKind::UnexpectedEof), "{error}");
    for bytes in [vec![], file(vec![atom("mdat", b"film")]).bytes()] {
        let error = Moov::read(Cursor::new(bytes)).unwrap_err();
        assert!(matches!(error, ReadError::Refused(Refusal::AtomCount)), "{error}");
    }
}

#[test]
fn the_movie_and_its_edits() {
    let edits = vec![(60, -1, 65536), (60, 24, 65536)];
    let track = film::Track { edits: Some(edits), ..w_track() };
    let bytes = film::Movie { tracks: vec![track], ..w_movie() }.file_of(4096).bytes();
    let moov = Moov::read(Cursor::new(&bytes)).unwrap();
    for movie in [Movie::open(&bytes).unwrap(), Movie::open(&moov).unwrap()] {
        assert_eq!((movie.header().scale, movie.header().stored), (600, MovieTime(120)));
        let edit = |media| Edit { duration: 60, media, rate: 65536 };
        assert_eq!(movie.edits(ONE), Ok(vec![edit(-1), edit(24)]));
        assert_eq!([-1, 24].map(|media| edit(media).start()), [None, Some(MediaTime(24))]);
        assert_eq!(movie.edits(TrackId(2)), Err(Refusal::NoTrack));
    }
    assert_eq!(Movie::open(&w().bytes()).unwrap().edits(ONE), Ok(vec![]));
}

#[test]
fn slips_of_form_2() {
    let bytes = [0x02, 0x01, 0xd8, 0x04, 0x18, 0x49, 0x01, 0x80, 0x80, 0x80, 0x80, 0x10, 0x0a];
    let slip = AnySlip::read(&bytes).unwrap();
    assert_eq!((slip.form, slip.id, slip.scale, slip.time()), (2, 1, 600, Some(MediaTime(24)..MediaTime(73))));
    assert_eq!((slip.pairs.as_slice(), slip.bytes()), (&[ByteRange { offset: 1 << 32, length: 10 }][..], 10));
    assert_eq!(Slip::read(&bytes).unwrap_err().place, 0);
    // Without a great number the form must be 1.
    let narrow = [0x02, 0x01, 0xd8, 0x04, 0x18, 0x49, 0x01, 0x10, 0x0a];
    assert_eq!(AnySlip::read(&narrow).unwrap_err().place, 0);
    assert_eq!(AnySlip::read(&bytes[..12]).unwrap_err().place, 12);
}
