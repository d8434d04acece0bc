//! What film W does not show of the questions: the order of refusals, lent room, tables with signs, scales that differ, profiles, features.
use reference::film::*;
use reference::movie::*;
use reference::slip::{read_slip, Head};

fn code(text: &[u8; 4]) -> u32 {
    u32::from_be_bytes(*text)
}

fn with(change: impl Fn(&mut Track)) -> Vec<u8> {
    let mut movie = w_movie();
    change(&mut movie.tracks[0]);
    movie.file_of(4096).bytes()
}

#[test]
fn file_refusals_come_first_and_14_before_the_rest() {
    let refused = with(|track| track.stco[1] = 9999);
    let film = w().bytes();
    let mut room = [9; 20];
    let mut bytes = [9; 20];
    assert_eq!(track_list(&refused, &mut room), (12, 0));
    assert_eq!(sample(&refused, 2, 0), (12, Sample::default()));
    assert_eq!(sample(&film, 2, 0), (14, Sample::default()));
    assert_eq!(sample(&film, 0, 1), (14, Sample::default()));
    assert_eq!(sample_at(&refused, 2, 0), (12, (0, 0)));
    assert_eq!(sample_at(&film, 2, 500), (14, (0, 0)));
    assert_eq!(media_time(&refused, 2, 500), MediaTime::Refused(12));
    assert_eq!(media_time(&film, 2, 500), MediaTime::Refused(14));
    assert_eq!(stretch(&film, 2, 5, 5, &mut []), (14, (0, 0)));
    assert_eq!(stretch(&film, 1, 5, 5, &mut []), (15, (0, 0)));
    assert_eq!(stretch(&film, 1, 0, 121, &mut []), (15, (0, 0)));
    assert_eq!(stretch(&film, 1, 24, 73, &mut room[..3]), (16, (0, 0)));
    assert_eq!(feature(&film, 2, 0), (14, 0));
    assert_eq!(feature(&film, 1, 0), (18, 0));
    assert_eq!(stored_profile(&film, 2, &mut []), (14, 0));
    assert_eq!(stored_profile(&film, 1, &mut []), (0, 0));
    assert_eq!(stored_profile(&film, 0, &mut []), (0, 0));
    assert_eq!(write_slip(&refused, 2, 5, 5, &mut []), (12, 0));
    assert_eq!(write_slip(&film, 2, 5, 5, &mut []), (14, 0));
    assert_eq!(write_slip(&film, 1, 5, 5, &mut []), (15, 0));
    assert_eq!(write_slip(&film, 1, 24, 73, &mut bytes[..12]), (16, 0));
    assert_eq!((room, bytes), ([9; 20], [9; 20]));
}

#[test]
fn lists_fill_the_first_places() {
    let mut room = [9; 9];
    assert_eq!(track_list(&w().bytes(), &mut room[..7]), (16, 0));
    assert_eq!(track_list(&w().bytes(), &mut room), (0, 1));
    assert_eq!(room, [1, code(b"vide"), 600, 120, 4, 2, 0, 120, 9]);
    let no_tracks = Movie { tracks: vec![], ..w_movie() }.file().bytes();
    assert_eq!(track_list(&no_tracks, &mut []), (0, 0));
    assert_eq!(listing(&no_tracks), "id subtype scale total samples chunks edits stored\n");
}

#[test]
fn another_stored_duration_stops_only_the_slip_writer() {
    let film = with(|track| track.duration = 121);
    let mut room = [9; 9];
    assert_eq!(track_list(&film, &mut room), (0, 1));
    assert_eq!(room, [1, code(b"vide"), 600, 120, 4, 2, 0, 121, 9]);
    assert_eq!(sample_at(&film, 1, 119), (0, (4, 2)));
    assert_eq!(sample_at(&film, 1, 120), (15, (0, 0)));
    assert_eq!(stretch(&film, 1, 24, 73, &mut room), (0, (2, 120)));
    for (id, a, b, length) in [(1, 24, 73, 13), (2, 24, 73, 13), (1, 5, 5, 13), (1, 24, 73, 0)] {
        assert_eq!(write_slip(&film, id, a, b, &mut vec![9; length]), (11, 0));
    }
    let both = with(|track| (track.duration, track.stco[1]) = (121, 9999));
    assert_eq!(sample(&both, 1, 1), (12, Sample::default()));
    assert_eq!(write_slip(&both, 1, 24, 73, &mut [9; 13]), (11, 0));
}

#[test]
fn entries_looked_at() {
    // Entries of no duration, and of one sample, before the answer and after it.
    let film = with(|track| track.stts = vec![(1, 0), (1, 0), (1, 120), (1, 0)]);
    for t in [0, 119] {
        assert_eq!(sample_at(&film, 1, t), (0, (3, 3)));
    }
    assert_eq!(sample_at(&film, 1, 120), (15, (0, 0)));
    let film = with(|track| track.stts = vec![(3, 0), (1, 120)]);
    assert_eq!(sample_at(&film, 1, 0), (0, (4, 2)));
    let film = with(|track| track.stts = vec![(4, 30)]);
    assert_eq!(sample_at(&film, 1, 119), (0, (4, 1)));
}

#[test]
fn composition_times_are_signed() {
    let film = with(|track| track.ctts = Some(vec![(1, -1), (2, i32::MIN), (1, i32::MAX)]));
    let times = [1, 2, 3, 4].map(|n| sample(&film, 1, n).1.composition_time);
    assert_eq!(times, [-1, 24 - 2_147_483_648, 48 - 2_147_483_648, 72 + 2_147_483_647]);
}

#[test]
fn sync_samples_are_those_of_stss() {
    let film = with(|track| track.stss = Some(vec![1, 4]));
    assert_eq!([1, 2, 3, 4].map(|n| sample(&film, 1, n).1.is_sync), [true, false, false, true]);
    let film = with(|track| track.stss = Some(vec![]));
    assert_eq!([1, 2, 3, 4].map(|n| sample(&film, 1, n).1.is_sync), [false; 4]);
}

#[test]
fn movie_times_and_media_times_have_their_own_scales() {
    // Three media units in each movie unit of two.
    let film = |edits| {
        let track = Track { scale: 900, edits, ..w_track() };
        Movie { tracks: vec![track], ..w_movie() }.file_of(4096).bytes()
    };
    let plain = film(None);
    assert_eq!([0, 1, 2, 79].map(|t| media_time(&plain, 1, t)), [0, 1, 3, 118].map(MediaTime::At));
    assert_eq!(media_time(&plain, 1, 80), MediaTime::Refused(15));
    let edited = film(Some(vec![(3, 10, 65536), (1, -1, 65536), (2, 0, 65536)]));
    assert_eq!([0, 1, 2].map(|t| media_time(&edited, 1, t)), [10, 11, 13].map(MediaTime::At));
    assert_eq!(media_time(&edited, 1, 3), MediaTime::NothingShown);
    assert_eq!([4, 5].map(|t| media_time(&edited, 1, t)), [0, 1].map(MediaTime::At));
    assert_eq!(media_time(&edited, 1, 6), MediaTime::Refused(15));
    // The slip has the media's scale.
    let mut slip = [0; 20];
    let (_, length) = write_slip(&plain, 1, 24, 73, &mut slip);
    let mut room = [0; 4];
    let (refusal, head, _) = read_slip(&slip[..usize::try_from(length).unwrap()], &mut room);
    assert_eq!((refusal, head), (0, Head { id: 1, scale: 900, a: 24, b: 73, pairs: 2 }));
    assert_eq!(room, [1100, 50, 900, 70]);
}

#[test]
fn stretches_take_samples_without_duration_between() {
    let film = with(|track| {
        track.stts = vec![(1, 0), (1, 60), (1, 0), (1, 60), (1, 0)];
        track.stsc = vec![(1, 1, 1)];
        track.stsz = Sizes::Each(vec![1, 2, 4, 8, 16]);
        track.stco = vec![1000, 900, 800, 700, 600];
    });
    let mut room = [9; 10];
    assert_eq!(stretch(&film, 1, 0, 120, &mut room), (0, (3, 14)));
    assert_eq!(room, [900, 2, 800, 4, 700, 8, 9, 9, 9, 9]);
    assert_eq!(stretch(&film, 1, 0, 60, &mut room), (0, (1, 2)));
}

#[test]
fn stretches_keep_pairs_without_bytes() {
    let film = with(|track| {
        track.stts = vec![(4, 30)];
        track.stsc = vec![(1, 2, 1)];
        track.stsz = Sizes::Each(vec![5, 0, 0, 7]);
    });
    let mut room = [9; 4];
    assert_eq!(stretch(&film, 1, 30, 90, &mut room), (0, (2, 0)));
    assert_eq!(room, [1005, 0, 900, 0]);
}

#[test]
fn profiles_keep_records_with_a_code() {
    let mut movie = w_movie();
    movie.profile = Some(vec![[9, 1, 0, 3], [9, 4, 5, 6]]);
    movie.tracks[0].profile = Some(vec![[0, 7, 8, 9], [0, 0, 1, 0]]);
    let film = movie.file_of(4096).bytes();
    let mut room = [9; 7];
    assert_eq!(stored_profile(&film, 0, &mut room), (0, 1));
    assert_eq!(room, [4, 5, 6, 9, 9, 9, 9]);
    assert_eq!(stored_profile(&film, 1, &mut room[..5]), (16, 0));
    assert_eq!(stored_profile(&film, 1, &mut room), (0, 2));
    assert_eq!(room, [7, 8, 9, 0, 1, 0, 9]);
}

#[test]
fn the_first_profile_alone_counts() {
    let mut film = w();
    film.insert_before("moov mvhd", atom("prfl", &[1]));
    film.insert_before("moov mvhd", prfl(&[[0, 4, 5, 6]]));
    film.insert_after("moov mvhd", prfl(&[[0, 4, 5, 6]]));
    film.push("moov trak", prfl(&[[0, 4, 5, 6]]));
    assert_eq!(stored_profile(&film.bytes(), 0, &mut []), (0, 0));
    assert_eq!(stored_profile(&film.bytes(), 1, &mut []), (0, 0));
}

#[test]
fn averages_with_edits() {
    let avvb = |list: &[(u32, i32)]| {
        let edits = list.iter().map(|(duration, media_time)| (*duration, *media_time, 65536)).collect();
        feature(&with(|track| track.edits = Some(Vec::clone(&edits))), 1, code(b"avvb"))
    };
    assert_eq!(avvb(&[(120, 0)]), (0, 8800));
    // A place is enough to cover its sample, and it is covered again by each entry: 100 bytes over 24 units, then 100, 100 and 70 over 24, 24 and 48.
    assert_eq!(avvb(&[(1, 23)]), (0, 20_000));
    assert_eq!(avvb(&[(1, 23), (5, -1), (1, 0), (1, 72)]), (0, 13_500));
    // The sample of no bytes alone, and nothing at all.
    assert_eq!(avvb(&[(24, 48)]), (0, 0));
    assert_eq!(avvb(&[(60, -1), (1, -1)]), (18, 0));
    // The last place is a unit before the next sample, and then in it.
    assert_eq!(avvb(&[(24, 0)]), (0, 20_000));
    assert_eq!(avvb(&[(25, 0)]), (0, 15_000));
    // Movie time counts twice as fast as media time: its unit 48 is media time 24.
    let film =
        Movie { scale: 1200, tracks: vec![Track { edits: Some(vec![(49, 0, 65536)]), ..w_track() }], ..w_movie() };
    assert_eq!(feature(&film.file_of(4096).bytes(), 1, code(b"avvb")), (0, 15_000));
}

#[test]
fn features_are_refused_18() {
    let avvb = |change: fn(&mut Track)| feature(&with(change), 1, code(b"avvb"));
    let film = w().bytes();
    assert_eq!(feature(&film, 1, code(b"avab")), (18, 0));
    assert_eq!(feature(&film, 1, code(b"AVVB")), (18, 0));
    assert_eq!(feature(&film, 1, code(b"tvsz")), (0, 320 * 65536 + 240));
    let sound = with(|track| track.subtype = *b"soun");
    assert_eq!(feature(&sound, 1, code(b"avab")), (0, 8800));
    for wrong in [b"avvb", b"tvsz", b"vfps"] {
        assert_eq!(feature(&sound, 1, code(wrong)), (18, 0));
    }
    // A total of 0, a result over 32 bits, and the greatest that is not.
    assert_eq!(avvb(|track| (track.stts, track.duration) = (vec![(4, 0)], 0)), (18, 0));
    assert_eq!(avvb(|track| track.scale = u32::MAX), (18, 0));
    assert_eq!(
        avvb(|track| (track.stts, track.duration, track.scale) = (vec![(4, 440)], 1760, u32::MAX)),
        (0, u32::MAX)
    );
    assert_eq!(avvb(|track| track.stsz = Sizes::Each(vec![0; 4])), (0, 0));
    let vfps = |change: fn(&mut Track)| feature(&with(change), 1, code(b"vfps"));
    assert_eq!(vfps(|track| (track.stts, track.duration) = (vec![(4, 0)], 0)), (18, 0));
    assert_eq!(vfps(|track| (track.stts, track.duration) = (vec![(1, 0), (2, 48), (1, 24)], 120)), (0, 0x0019_0000));
    // The greatest width and height may come from two descriptions.
    let two = with(|track| track.descriptions = vec![picture(7, 2), picture(3, 9)]);
    assert_eq!(feature(&two, 1, code(b"tvsz")), (0, 7 * 65536 + 9));
    let none = with(|track| {
        track.descriptions = vec![];
        (track.stts, track.stsc, track.stsz, track.stco) = (vec![], vec![], Sizes::Each(vec![]), vec![]);
        track.duration = 0;
    });
    for code in [b"avvb", b"tvsz", b"vfps"].map(code) {
        assert_eq!(feature(&none, 1, code), (18, 0));
    }
}
