//! Every case of document 01, "Film W".
use reference::film::{stco, w, w_movie, w_track, Movie, Node, Sizes, Track};
use reference::movie::{
    feature, listing, media_time, refusal, sample, sample_at, sample_bytes, stretch, strict_refusal, write_slip,
    MediaTime, Sample,
};

fn code(text: &[u8; 4]) -> u32 {
    u32::from_be_bytes(*text)
}

fn with_track(track: Track) -> Node {
    Movie { tracks: vec![track], ..w_movie() }.file_of(4096)
}

#[test]
fn w_has_4096_bytes_and_is_accepted() {
    assert_eq!(w().bytes().len(), 4096);
    assert_eq!(refusal(&w().bytes()), 0);
}

#[test]
fn times() {
    let film = w().bytes();
    for (t, n, entry) in [(0, 1, 1), (23, 1, 1), (24, 2, 1), (71, 3, 1), (72, 4, 2), (119, 4, 2)] {
        assert_eq!(sample_at(&film, 1, t), (0, (n, entry)), "time {t}");
    }
    assert_eq!(sample_at(&film, 1, 120), (15, (0, 0)));
}

#[test]
fn samples() {
    let film = w().bytes();
    let (refusal, third) = sample(&film, 1, 3);
    assert_eq!((refusal, third.decode_time, third.chunk, third.offset, third.size), (0, 48, 1, 1150, 0));
    let (refusal, fourth) = sample(&film, 1, 4);
    assert_eq!((refusal, fourth.chunk, fourth.offset), (0, 2, 900));
    let whole = Sample {
        decode_time: 72,
        duration: 48,
        composition_time: 72,
        is_sync: true,
        description_id: 1,
        chunk: 2,
        offset: 900,
        size: 70,
    };
    assert_eq!(fourth, whole);
    for n in [0, 5] {
        assert_eq!(sample(&film, 1, n), (15, Sample::default()));
        assert_eq!(sample_bytes(&film, 1, n), (0, 0));
    }
    assert_eq!(sample_bytes(&film, 1, 2), (1100, 50));
    assert_eq!(sample_bytes(&film, 1, 3), (1150, 0));
}

#[test]
fn stretches() {
    let film = w().bytes();
    let mut room = [9; 5];
    assert_eq!(stretch(&film, 1, 24, 73, &mut room), (0, (2, 120)));
    assert_eq!(room, [1100, 50, 900, 70, 9]);
    assert_eq!(stretch(&film, 1, 0, 120, &mut room), (0, (2, 220)));
    assert_eq!(room, [1000, 150, 900, 70, 9]);
    assert_eq!(stretch(&film, 1, 24, 24, &mut room), (15, (0, 0)));
    assert_eq!(room, [1000, 150, 900, 70, 9]);
}

#[test]
fn slip() {
    let mut room = [9; 14];
    assert_eq!(write_slip(&w().bytes(), 1, 24, 73, &mut room), (0, 13));
    assert_eq!(room, [0x01, 0x01, 0xd8, 0x04, 0x18, 0x49, 0x02, 0xcc, 0x08, 0x32, 0x84, 0x07, 0x46, 9]);
}

#[test]
fn features() {
    let film = w().bytes();
    assert_eq!(feature(&film, 1, code(b"avvb")), (0, 8800));
    assert_eq!(feature(&film, 1, code(b"vfps")), (0, 0x0019_0000));
    let track = Track { scale: 30000, duration: 1001 + 3 * 2002, stts: vec![(3, 2002), (1, 1001)], ..w_track() };
    assert_eq!(feature(&with_track(track).bytes(), 1, code(b"vfps")), (0, 0x001d_f854));
}

#[test]
fn edits() {
    let edited = |media_time| {
        let edits = vec![(60, -1, 65536), (60, media_time, 65536)];
        with_track(Track { edits: Some(edits), ..w_track() }).bytes()
    };
    let film = edited(24);
    assert_eq!(media_time(&film, 1, 59), MediaTime::NothingShown);
    assert_eq!(media_time(&film, 1, 60), MediaTime::At(24));
    assert_eq!(media_time(&film, 1, 119), MediaTime::At(83));
    assert_eq!(media_time(&film, 1, 120), MediaTime::Refused(15));
    // Document 02: "W with the edits (60,-1),(60,24) covers samples 2 to 4: 120 bytes over 96 units, so avvb is 6000."
    assert_eq!(feature(&film, 1, code(b"avvb")), (0, 6000));
    assert_eq!(refusal(&edited(61)), 13);
    assert_eq!(refusal(&edited(60)), 0);
}

#[test]
fn refusals() {
    let other = with_track(Track { duration: 121, ..w_track() }).bytes();
    assert_eq!((refusal(&other), strict_refusal(&other)), (0, 11));
    assert_eq!(write_slip(&other, 1, 24, 73, &mut [0; 13]), (11, 0));
    for (offset, number) in [(4027, 12), (4026, 0)] {
        let mut film = w();
        film.replace("moov trak mdia minf stbl stco", stco(&[1000, offset]));
        assert_eq!(refusal(&film.bytes()), number);
    }
    assert_eq!(refusal(&[]), 3);
}

#[test]
fn the_listing() {
    assert_eq!(
        listing(&w().bytes()),
        "id subtype scale total samples chunks edits stored\n1 76696465 600 120 4 2 0 120\n"
    );
    assert_eq!(listing(&[]), "refused 3\n");
    assert_eq!(listing(&w_movie().file_of(65_536).bytes()).lines().count(), 2);
    assert_eq!(listing(&w_movie().file_of(65_537).bytes()), "too long\n");
}

#[test]
fn misreadings() {
    // "Tracks merged by subtype or name."
    let second = Track { id: 7, stts: vec![(4, 10)], duration: 40, stco: vec![1200, 950], ..w_track() };
    let film = Movie { tracks: vec![w_track(), second], ..w_movie() }.file_of(4096).bytes();
    assert_eq!(
        listing(&film).lines().skip(1).collect::<Vec<_>>(),
        ["1 76696465 600 120 4 2 0 120", "7 76696465 600 40 4 2 0 40"]
    );
    assert_eq!(sample(&film, 7, 4).1.offset, 950);
    // "The last stsc entry applied to one chunk and not to all that remain."
    let three = Track {
        stts: vec![(5, 24)],
        stsc: vec![(1, 3, 1), (2, 1, 1)],
        stsz: Sizes::Each(vec![100, 50, 0, 70, 8]),
        stco: vec![1000, 900, 2000],
        ..w_track()
    };
    let film = with_track(three).bytes();
    assert_eq!((sample(&film, 1, 5).1.chunk, sample(&film, 1, 5).1.offset), (3, 2000));
    // "A zero-duration sample returned for the time at which it stands."
    let still = Track { stts: vec![(1, 0), (1, 60), (1, 0), (1, 60)], ..w_track() };
    let film = with_track(still).bytes();
    assert_eq!([0, 59, 60, 119].map(|t| sample_at(&film, 1, t).1), [(2, 2), (2, 2), (4, 4), (4, 4)]);
    // "Media time -1 read as 4,294,967,295."
    let empty = Track { edits: Some(vec![(1, -1, 65536)]), ..w_track() };
    assert_eq!(media_time(&with_track(empty).bytes(), 1, 0), MediaTime::NothingShown);
}
