//! Every case of document 01, "Film W" and "Misreadings to shut out", that a caller can put.
use chaldoref::{
    strict_refusal, ByteRange, Feature, FourCC, MediaTime, Movie, MovieTime, Refusal, Sample, SampleAt, Shown, Slip,
    Stretch, StretchSize, Track, TrackId,
};
use reference::film::{self, w, w_movie, w_track, Sizes};
use std::ops::Range;

const ONE: TrackId = TrackId(1);
const SLIP: [u8; 13] = [0x01, 0x01, 0xd8, 0x04, 0x18, 0x49, 0x02, 0xcc, 0x08, 0x32, 0x84, 0x07, 0x46];

/// W with another track.
fn with_track(track: film::Track) -> Vec<u8> {
    film::Movie { tracks: vec![track], ..w_movie() }.file_of(4096).bytes()
}

fn media(a: u32, b: u32) -> Range<MediaTime> {
    MediaTime(a)..MediaTime(b)
}

fn pair(offset: u64, length: u64) -> ByteRange {
    ByteRange { offset, length }
}

fn opened(file: &[u8]) -> Movie<'_> {
    Movie::open(file).unwrap()
}

#[test]
fn the_stored_film_is_w() {
    assert_eq!(std::fs::read("../../films/w.mov").unwrap(), w().bytes());
}

#[test]
fn tracks() {
    let file = w().bytes();
    let mut track = Track::default();
    (track.id, track.subtype) = (ONE, FourCC::from_bytes(*b"vide"));
    (track.scale, track.total) = (600, MediaTime(120));
    (track.samples, track.chunks, track.edits) = (4, 2, 0);
    track.stored = MediaTime(120);
    let movie = opened(&file);
    assert_eq!(movie.tracks(), [track]);
    assert_eq!(movie.track(ONE), Some(&track));
    assert_eq!(movie.track(TrackId(2)), None);
    assert_eq!(movie.film(), chaldoref::Film::Whole(&file));
}

#[test]
fn times() {
    let file = w().bytes();
    let at = |t| opened(&file).sample_at(ONE, MediaTime(t));
    for (t, n, entry) in [(0, 1, 1), (23, 1, 1), (24, 2, 1), (71, 3, 1), (72, 4, 2), (119, 4, 2)] {
        assert_eq!(at(t), Ok(SampleAt::new(n, entry)), "time {t}");
    }
    assert_eq!(at(120), Err(Refusal::Outside));
}

#[test]
fn samples() {
    let file = w().bytes();
    let movie = opened(&file);
    let mut sample = Sample::default();
    (sample.decode, sample.duration, sample.composition) = (MediaTime(48), 24, 48);
    (sample.sync, sample.description) = (true, 1);
    (sample.chunk, sample.offset, sample.size) = (1, 1150, 0);
    assert_eq!(movie.sample(ONE, 3), Ok(sample));
    (sample.decode, sample.duration, sample.composition) = (MediaTime(72), 48, 72);
    (sample.chunk, sample.offset, sample.size) = (2, 900, 70);
    assert_eq!(movie.sample(ONE, 4), Ok(sample));
    for n in [0, 5] {
        assert_eq!(movie.sample(ONE, n), Err(Refusal::Outside));
        assert_eq!(movie.sample_bytes(ONE, n), Err(Refusal::Outside));
        assert_eq!(movie.sample_range(ONE, n), Err(Refusal::Outside));
    }
}

#[test]
fn sample_bytes_are_a_part_of_the_file() {
    let file = w().bytes();
    let bytes = opened(&file).sample_bytes(ONE, 2).unwrap().unwrap();
    // They outlive the movie that was asked, and were not copied.
    assert!(std::ptr::eq(bytes, &file[1100..1150]));
    assert!(std::ptr::eq(opened(&file).sample_bytes(ONE, 3).unwrap().unwrap(), &file[1150..1150]));
    assert_eq!([2, 3].map(|n| opened(&file).sample_range(ONE, n)), [Ok(pair(1100, 50)), Ok(pair(1150, 0))]);
}

#[test]
fn stretches() {
    let file = w().bytes();
    let movie = opened(&file);
    let part = Stretch::new(vec![pair(1100, 50), pair(900, 70)]);
    let whole = Stretch::new(vec![pair(1000, 150), pair(900, 70)]);
    assert_eq!((part.bytes, whole.bytes), (120, 220));
    assert_eq!(movie.stretch(ONE, media(24, 73)), Ok(part));
    assert_eq!(movie.stretch(ONE, media(0, 120)), Ok(whole));
    for outside in [media(24, 24), media(25, 24), media(0, 121), media(120, 121)] {
        assert_eq!(movie.stretch(ONE, outside), Err(Refusal::Outside));
    }
}

#[test]
fn stretches_into_lent_room() {
    let file = w().bytes();
    let movie = opened(&file);
    let mut room = [pair(7, 7); 3];
    assert_eq!(movie.stretch_into(ONE, media(24, 73), &mut room[..1]), Err(Refusal::NoRoom));
    assert_eq!(movie.stretch_into(ONE, media(24, 24), &mut room), Err(Refusal::Outside));
    assert_eq!(room, [pair(7, 7); 3]);
    let mut size = StretchSize::default();
    (size.pairs, size.bytes) = (2, 120);
    assert_eq!(movie.stretch_into(ONE, media(24, 73), &mut room), Ok(size));
    assert_eq!(room, [pair(1100, 50), pair(900, 70), pair(7, 7)]);
}

#[test]
fn slips() {
    let file = w().bytes();
    let movie = opened(&file);
    assert_eq!(movie.write_slip(ONE, media(24, 73)).unwrap(), SLIP);
    assert_eq!(movie.write_slip(ONE, media(24, 24)), Err(Refusal::Outside));
    let mut out = [9; 14];
    assert_eq!(movie.write_slip_into(ONE, media(24, 73), &mut out[..12]), Err(Refusal::NoRoom));
    assert_eq!(out, [9; 14]);
    assert_eq!(movie.write_slip_into(ONE, media(24, 73), &mut out), Ok(13));
    assert_eq!((&out[..13], out[13]), (&SLIP[..], 9));
    assert_eq!(movie.tracks()[0].slip_room(), 44);
}

#[test]
fn slips_are_read_back() {
    let slip = Slip::read(&SLIP).unwrap();
    let pairs = vec![pair(1100, 50), pair(900, 70)];
    assert_eq!(slip, Slip::new(ONE, 600, media(24, 73), pairs));
    assert_eq!((slip.id, slip.scale, slip.a, slip.b), (ONE, 600, MediaTime(24), MediaTime(73)));
    assert_eq!((slip.film_time(), slip.bytes()), (49, 120));
}

#[test]
fn malformed_slips_have_a_place() {
    let place = |bytes: &[u8]| Slip::read(bytes).unwrap_err().place;
    // It ends early.
    for end in 0..SLIP.len() {
        assert_eq!(place(&SLIP[..end]), end);
    }
    // A surplus byte; b that is a; a number of pairs that is padded.
    assert_eq!(place(&[&SLIP[..], &[0]].concat()), 13);
    assert_eq!(place(&[&SLIP[..5], &[0x18], &SLIP[6..]].concat()), 5);
    assert_eq!(place(&[&SLIP[..6], &[0x82, 0x00], &SLIP[7..]].concat()), 6);
    let malformed = Slip::read(&SLIP[..12]).unwrap_err();
    assert_eq!(
        (malformed.to_string().as_str(), malformed.into()),
        ("a slip is malformed, at place 12", Refusal::MalformedSlip)
    );
}

#[test]
fn features() {
    let file = w().bytes();
    let movie = opened(&file);
    assert_eq!(movie.feature(ONE, Feature::AverageVideoBitRate), Ok(8800));
    assert_eq!(movie.feature(ONE, Feature::AverageAudioBitRate), Err(Refusal::NotComputed));
    assert_eq!(movie.feature(ONE, Feature::GreatestPicture), Ok(320 << 16 | 240));
    assert_eq!(movie.feature(ONE, Feature::HighestFrameRate), Ok(0x0019_0000));
    assert_eq!(movie.feature(ONE, Feature::HighestVideoBitRate), Ok(8800));
    assert_eq!(movie.feature(ONE, Feature::HighestAudioBitRate), Err(Refusal::NotComputed));
    assert_eq!(movie.feature(ONE, FourCC::from_bytes(*b"vfmt")), Err(Refusal::NotComputed));
    let track = film::Track { scale: 30000, duration: 1001 + 3 * 2002, stts: vec![(3, 2002), (1, 1001)], ..w_track() };
    assert_eq!(opened(&with_track(track)).feature(ONE, Feature::HighestFrameRate), Ok(0x001d_f854));
}

#[test]
fn edits() {
    let edited = |media_time| {
        let edits = vec![(60, -1, 65536), (60, media_time, 65536)];
        with_track(film::Track { edits: Some(edits), ..w_track() })
    };
    let file = edited(24);
    let movie = opened(&file);
    assert_eq!(movie.media_time(ONE, MovieTime(59)), Ok(Shown::Nothing));
    assert_eq!(movie.media_time(ONE, MovieTime(60)), Ok(Shown::At(MediaTime(24))));
    assert_eq!(movie.media_time(ONE, MovieTime(119)), Ok(Shown::At(MediaTime(83))));
    assert_eq!(movie.media_time(ONE, MovieTime(120)), Err(Refusal::Outside));
    assert_eq!(movie.tracks()[0].edits, 2);
    assert_eq!(Movie::open(&edited(61)).err(), Some(Refusal::EditList));
    assert!(Movie::open(&edited(60)).is_ok());
}

#[test]
fn refusals_of_w() {
    for (offset, refusal) in [(4027, Some(Refusal::PastEnd)), (4026, None)] {
        let track = film::Track { stco: vec![1000, offset], ..w_track() };
        assert_eq!(Movie::open(&with_track(track)).err(), refusal);
    }
    assert_eq!(Movie::open(&[]).err(), Some(Refusal::AtomCount));
}

#[test]
fn a_stored_duration_that_is_not_the_total() {
    let file = with_track(film::Track { duration: 121, ..w_track() });
    let movie = opened(&file);
    let track = movie.tracks()[0];
    assert_eq!((track.total, track.stored, track.has_other_duration()), (MediaTime(120), MediaTime(121), true));
    assert!(!opened(&w().bytes()).tracks()[0].has_other_duration());
    assert_eq!(movie.sample_at(ONE, MediaTime(120)), Err(Refusal::Outside));
    let time = MediaTime(24)..MediaTime(73);
    assert_eq!(movie.stretch(ONE, time.clone()), opened(&w().bytes()).stretch(ONE, time.clone()));
    let mut out = [9; 13];
    assert_eq!(movie.write_slip(ONE, time.clone()), Err(Refusal::StoredDuration));
    assert_eq!(movie.write_slip_into(TrackId(2), time, &mut out), Err(Refusal::StoredDuration));
    assert_eq!(out, [9; 13]);
    assert_eq!(strict_refusal(&file), Some(Refusal::StoredDuration));
    assert_eq!(strict_refusal(&w().bytes()), None);
    let both = with_track(film::Track { duration: 121, stco: vec![1000, 4027], ..w_track() });
    assert_eq!(
        (Movie::open(&both).err(), strict_refusal(&both)),
        (Some(Refusal::PastEnd), Some(Refusal::StoredDuration))
    );
    let past_end = with_track(film::Track { stco: vec![1000, 4027], ..w_track() });
    assert_eq!(strict_refusal(&past_end), Some(Refusal::PastEnd));
}

#[test]
fn misreadings() {
    // "The last stsc entry applied to one chunk and not to all that remain."
    let three = film::Track {
        stts: vec![(5, 24)],
        stsz: Sizes::Each(vec![100, 50, 0, 70, 8]),
        stco: vec![1000, 900, 2000],
        ..w_track()
    };
    let fifth = opened(&with_track(three)).sample(ONE, 5).unwrap();
    assert_eq!((fifth.chunk, fifth.offset), (3, 2000));
    // "A zero-duration sample returned for the time at which it stands."
    let still = with_track(film::Track { stts: vec![(1, 0), (1, 60), (1, 0), (1, 60)], ..w_track() });
    let found = [0, 59, 60, 119].map(|t| opened(&still).sample_at(ONE, MediaTime(t)));
    // Each sample has an entry of its own.
    assert_eq!(found, [2, 2, 4, 4].map(|n| Ok(SampleAt::new(n, n))));
    // "Media time -1 read as 4,294,967,295."
    let empty = with_track(film::Track { edits: Some(vec![(1, -1, 65536)]), ..w_track() });
    assert_eq!(opened(&empty).media_time(ONE, MovieTime(0)), Ok(Shown::Nothing));
}

#[test]
fn a_composition_time_may_be_negative() {
    let track = film::Track { ctts: Some(vec![(1, -5), (3, 7)]), stss: Some(vec![2]), ..w_track() };
    let file = with_track(track);
    let [first, second] = [1, 2].map(|n| opened(&file).sample(ONE, n).unwrap());
    assert_eq!((first.composition, first.sync), (-5, false));
    assert_eq!((second.composition, second.sync), (31, true));
}
