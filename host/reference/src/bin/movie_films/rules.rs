//! Refused 7 to 13 and 19, each for one fault alone; 11 only where strict reading is asked for.
use super::base::*;
use reference::film::*;

/// "a track ID is 0 or occurs twice"
fn ids(films: &mut Films) {
    films.one(7, "id-zero", |track| track.id = 0);
    films.tracks(7, "id-zero-in-the-last-of-16", &{
        let mut all = sixteen();
        all[15].id = 0;
        all
    });
    films.tracks(7, "id-twice", &[track(1), track(1)]);
    films.tracks(7, "id-twice-in-1-and-3-of-three", &[track(5), track(1), track(5)]);
    for (name, first) in [("first", 0), ("last-but-one", 14)] {
        let mut all = sixteen();
        all[15].id = all[first].id;
        films.tracks(7, &format!("id-of-the-{name}-of-16-in-the-last"), &all);
    }
    let sound = Track { subtype: *b"soun", scale: 8000, descriptions: vec![description(b"twos", 16)], ..track(1) };
    films.tracks(7, "id-twice-in-tracks-of-two-subtypes", &[track(1), sound]);
    films.node(7, "id-twice-with-free-between", {
        let mut film = movie(&[track(1), track(2), track(1)]);
        film.insert_after("moov trak:0", atom("free", &[]));
        film.insert_after("moov trak:1", atom("free", &[1]));
        film
    });
}

/// "a movie or media time scale is 0"
fn scales(films: &mut Films) {
    films.node(8, "movie-scale-zero", scaled(0, &tracks(1)));
    films.node(8, "movie-scale-zero-without-tracks", scaled(0, &[]));
    films.node(8, "movie-scale-zero-with-edits", scaled(0, &[Track { edits: edits(&[(60, 0)]), ..track(1) }]));
    films.one(8, "media-scale-zero", |track| track.scale = 0);
    films.of(8, "media-scale-zero-in-the-second-of-three", 3, 2, |track| track.scale = 0);
    films.tracks(8, "media-scale-zero-in-the-last-of-16", &{
        let mut all = sixteen();
        all[15].scale = 0;
        all
    });
}

/// "sample tables contradict each other"
fn tables(films: &mut Films) {
    films.one(9, "stts-entry-of-no-samples", |track| track.stts = vec![(3, 24), (0, 5), (1, 48)]);
    films.one(9, "stts-totals-4-and-2-32", |track| track.stts = vec![(u32::MAX, 0), (5, 24)]);
    films.one(9, "ctts-totals-5-of-4", |track| track.ctts = Some(vec![(5, 1)]));
    films.one(9, "no-chunks-and-samples", |track| (track.stsc, track.stco) = (vec![], vec![]));
    films.tracks(9, "no-chunks-and-stsc", &[Track { stsc: vec![(1, 1, 1)], ..empty_track(1) }]);
    films.one(9, "stsc-empty", |track| track.stsc = vec![]);
    films.one(9, "stsc-not-rising", |track| track.stsc = vec![(1, 3, 1), (1, 1, 1)]);
    films.one(9, "stsc-no-samples-in-a-chunk", |track| track.stsc = vec![(1, 4, 1), (2, 0, 1)]);
    films.one(9, "stsc-description-2-of-1", |track| track.stsc = vec![(1, 2, 2)]);
    films.one(9, "stsc-deals-2-of-4", |track| track.stsc = vec![(1, 1, 1)]);
    films.one(9, "stss-sample-0", |track| track.stss = Some(vec![0, 4]));
    films.one(9, "stss-sample-5-of-4", |track| track.stss = Some(vec![1, 5]));
    films.of(9, "in-the-second-of-three", 3, 2, |track| track.stts = vec![(4, 24), (1, 24)]);
}

/// "the sample durations, or a track's edit durations, total over 4,294,967,295"
fn totals(films: &mut Films) {
    films.one(10, "samples-2-32", |track| (track.stts, track.duration) = (vec![(4, 1 << 30)], 0));
    films.one(10, "samples-2-32-and-120", |track| track.stts = vec![(3, 1 << 30), (1, (1 << 30) + 120)]);
    films.one(10, "edits-2-32", |track| track.edits = edits(&[(u32::MAX, -1), (1, 0)]));
    films.of(10, "edits-in-the-last-of-three", 3, 3, |track| track.edits = edits(&[(1 << 31, -1), (1 << 31, -1)]));
}

/// "the mdhd duration is not the total of the sample durations": not by default
fn durations(films: &mut Films) {
    films.one(0, "mdhd-119", |track| track.duration = 119).strictly_11();
    let film = films.one(0, "mdhd-is-the-total-of-the-edits", |track| {
        (track.duration, track.edits) = (60, edits(&[(60, 24)]));
    });
    film.strictly_11();
    films.tracks(0, "mdhd-without-samples", &[Track { duration: 1, ..empty_track(1) }]).strictly_11();
    films.of(0, "mdhd-121-in-the-last-of-three", 3, 3, |track| track.duration = 121).strictly_11();
    films.one(0, "mdhd-2-32-less-one", |track| track.duration = u32::MAX).strictly_11();
}

/// "data elsewhere or no such entry"
fn references(films: &mut Films) {
    let names = |index: u16, flags: &[u32]| {
        let references = flags.iter().map(|flags| reference(b"alis", *flags, &[])).collect();
        Track { descriptions: vec![referring(picture(1, 1), index)], references, ..track(1) }
    };
    for (number, name, index, flags) in [
        (19, "index-0", 0, &[1][..]),
        (19, "index-2-of-1", 2, &[1]),
        (19, "index-65535-of-1", 65_535, &[1]),
        (19, "index-256-of-1", 256, &[1]),
        (19, "index-1-of-none", 1, &[]),
        (19, "no-flags", 1, &[0]),
        (19, "all-flags-but-the-lowest", 1, &[0x00ff_fffe]),
        (19, "the-lowest-bits-of-the-other-flag-bytes", 1, &[0x0101_0100]),
        (19, "the-second-of-two", 2, &[1, 0]),
        (0, "reference-with-all-flags-of-version-255", 1, &[u32::MAX]),
        (0, "second-reference-of-two-to-this-file", 2, &[0, 1]),
        (0, "64-references-of-which-the-last-is-this-file", 64, &[[0; 63].as_slice(), &[1]].concat()),
    ] {
        films.tracks(number, name, &[names(index, flags)]);
    }
    // Every description is judged, used or not; of none nothing is asked.
    films.one(19, "an-unused-description-elsewhere", |track| track.descriptions.push(referring(picture(1, 1), 2)));
    films.one(19, "the-first-description-elsewhere", |track| track.descriptions.insert(0, referring(picture(1, 1), 0)));
    films.tracks(0, "no-references-and-no-descriptions", &[Track { references: vec![], ..empty_track(1) }]);
    films.tracks(19, "a-sound-track", &[track(1), Track { references: vec![], ..sound_track(2, [0, 12, 24]) }]);
    films.of(19, "in-the-last-of-three", 3, 3, |track| track.references = vec![reference(b"url ", 0, b"file.mov\0")]);
}

/// "a chunk's offset plus the sizes of its samples passes the file's end"
fn ends(films: &mut Films) {
    let end = u32::try_from(movie(&tracks(1)).bytes().len()).unwrap();
    films.one(12, "first-chunk-by-one-byte", |track| track.stco[0] = end - 149);
    films.one(12, "last-chunk-by-one-byte", |track| track.stco[1] = end - 69);
    films.one(12, "chunk-of-no-bytes-past-the-end", |track| {
        (track.stsz, track.stco) = (Sizes::Each(vec![0; 4]), vec![end + 1, 0]);
    });
    films.one(12, "offset-2-32-less-one", |track| track.stco[0] = u32::MAX);
    films.one(12, "sizes-of-2-32-together", |track| track.stsz = Sizes::Each(vec![1 << 31, 1 << 31, 0, 0]));
    films.one(12, "common-size-2-32-less-one", |track| track.stsz = Sizes::Common(u32::MAX, 4));
    films.of(12, "in-the-last-of-three", 3, 3, |track| track.stco[1] = 9999);
}

/// "an edit list is wrong"
fn lists(films: &mut Films) {
    films.one(13, "edits-none", |track| track.edits = edits(&[]));
    films.one(13, "edits-duration-0", |track| track.edits = edits(&[(60, 0), (0, 0)]));
    films.one(13, "edits-rate-half", |track| track.edits = Some(vec![(60, 0, 32768)]));
    films.one(13, "edits-rate-of-an-empty-one", |track| track.edits = Some(vec![(60, -1, 0), (60, 0, 65536)]));
    films.one(13, "edits-media-time-less-2", |track| track.edits = edits(&[(60, -2)]));
    films.one(13, "edits-media-time-least", |track| track.edits = edits(&[(60, i32::MIN)]));
    films.one(13, "edits-121-from-0", |track| track.edits = edits(&[(121, 0)]));
    films.one(13, "edits-one-of-a-total-0", |track| {
        (track.duration, track.stts, track.edits) = (0, vec![(4, 0)], edits(&[(1, 0)]));
    });
    films.tracks(13, "edits-one-of-no-samples", &[Track { edits: edits(&[(1, 0)]), ..empty_track(1) }]);
    // 81 movie times are 120 media times with media three in the time of movie two; 80 are 118.
    films.one(13, "edits-81-at-scale-900", |track| (track.scale, track.edits) = (900, edits(&[(81, 0)])));
    films.one(0, "edits-80-at-scale-900", |track| (track.scale, track.edits) = (900, edits(&[(80, 0)])));
    films.of(13, "edits-in-the-last-of-three", 3, 3, |track| track.edits = edits(&[(60, -1), (60, 61)]));
}

pub fn films(films: &mut Films) {
    ids(films);
    scales(films);
    tables(films);
    totals(films);
    durations(films);
    references(films);
    ends(films);
    lists(films);
}
