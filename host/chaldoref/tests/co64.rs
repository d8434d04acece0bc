//! A film from ffmpeg of more than 4 GiB, with a co64: its moov as ffmpeg 5.1 wrote it (`host/make-real-films`, co64.mov), 44 pictures of 100 MB.
use chaldoref::{AnySlip, ByteRange, Film, MediaTime, Movie, Refusal, TrackId};

const MOOV: &[u8] = include_bytes!("films/ffmpeg-co64.moov");
const LENGTH: u64 = 4_429_186_088;
const PICTURE: u32 = 8192 * 4096 * 3;
const ONE: TrackId = TrackId(1);

fn movie() -> Movie<'static> {
    Movie::open(Film::Moov { moov: MOOV, length: LENGTH }).unwrap()
}

/// Whether the tables have an atom of that kind.
fn has(kind: &[u8]) -> bool {
    MOOV.windows(4).any(|four| four == kind)
}

#[test]
fn it_has_a_co64_and_no_stco() {
    assert!(has(b"co64") && !has(b"stco"));
    assert_eq!(Movie::open(MOOV).unwrap_err(), Refusal::AtomCount);
    // One byte less than its last picture needs.
    let end = movie().sample(ONE, 44).unwrap().range();
    let short = Film::Moov { moov: MOOV, length: end.offset + end.length - 1 };
    assert_eq!(Movie::open(short).unwrap_err(), Refusal::PastEnd);
}

#[test]
fn its_samples() {
    let movie = movie();
    let samples: Vec<_> = movie.samples(ONE).unwrap().collect();
    assert_eq!((samples.len(), movie.tracks()[0].scale), (44, 12_800));
    let mut offset = samples[0].offset;
    for (n, sample) in (1..).zip(&samples) {
        assert_eq!(movie.sample(ONE, n).unwrap(), *sample);
        assert_eq!((sample.offset, sample.size, sample.duration, sample.sync), (offset, PICTURE, 512, true));
        offset += u64::from(PICTURE);
    }
    assert!(samples[43].offset > 1 << 32);
}

/// The slip of the last picture has a number above 2^32, so that it is of form 2.
#[test]
fn its_slips() {
    let movie = movie();
    let last = movie.sample(ONE, 44).unwrap();
    let end = movie.track(ONE).unwrap().total;
    let slip = movie.write_slip(ONE, last.decode..end).unwrap();
    assert_eq!(slip[0], 2);
    assert_eq!(AnySlip::read(&slip).unwrap().pairs, [ByteRange { offset: last.offset, length: PICTURE.into() }]);
    assert_eq!(movie.write_slip(ONE, MediaTime(0)..MediaTime(1)).unwrap()[0], 1);
}
