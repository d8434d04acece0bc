//! Films that are not refused, for what their lists hold.
use super::base::*;
use reference::film::*;
use reference::hoses::two_hoses;

/// Tracks that differ in each number of the list.
fn three_tracks() -> Vec<Track> {
    let sound = sound_track(20, [0, 12, 24]);
    let text = Track {
        subtype: *b"text",
        scale: 1000,
        duration: 50,
        descriptions: vec![description(b"text", 16); 2],
        stts: vec![(1, 50)],
        stsc: vec![(1, 1, 2)],
        stsz: Sizes::Each(vec![5]),
        stco: vec![40],
        edits: edits(&[(1, -1), (2, 3), (30, 0)]),
        ..track(7)
    };
    vec![track(300), sound, text]
}

fn counts(films: &mut Films) {
    films.tracks(0, "no-trak", &[]);
    films.node(0, "no-trak-but-a-misplaced-one", {
        let mut film = movie(&[]);
        film.push("", atom("trak", &[9]));
        film
    });
    films.tracks(0, "one-track", &tracks(1));
    films.tracks(0, "three-tracks-that-differ-in-all", &three_tracks());
    films.tracks(0, "16-tracks", &sixteen());
    // Falling IDs, and a subtype and a scale of its own for each.
    let differing = |n: u8| Track { scale: 1000 + u32::from(n), subtype: [n; 4], ..empty_track(100 * u32::from(n)) };
    films.tracks(0, "16-tracks-that-differ", &(1..=16).rev().map(differing).collect::<Vec<_>>());
}

/// Tracks that a reader might take for one, and what it might take for a track.
fn apart(films: &mut Films) {
    films.node(0, "two-hoses", two_hoses());
    let named = |tracks: &[Track]| {
        let mut film = movie(tracks);
        for i in 0..tracks.len() {
            film.at(&format!("moov trak:{i} mdia hdlr")).body.extend(b"\x04Hose");
        }
        film
    };
    films.node(0, "two-hoses-alike-in-all-but-the-id", named(&tracks(2)));
    films.node(0, "16-hoses-alike-in-all-but-the-id", named(&sixteen()));
    // Traks that do not follow one another at once, and mvhd not first.
    for (name, between) in [
        ("free", atom("free", &[9; 5])),
        ("an-unknown-type", Node { kind: [0xa9, 1, 0, 0xff], ..atom("free", &[0, 0, 0, 8]) }),
        ("udta", atom("udta", b"\0\0\0\x0ctrak\0\0\0\0")),
    ] {
        let mut film = movie(&tracks(3));
        for trak in ["moov trak:2", "moov trak:1", "moov trak:0"] {
            film.insert_before(trak, between.clone());
        }
        film.push("moov", between);
        films.node(0, &format!("traks-with-{name}-between"), film);
    }
    films.node(0, "traks-around-mvhd", {
        let mut film = movie(&tracks(3));
        film.at("moov").children.swap(0, 1);
        film
    });
    films.node(0, "trak-in-trak-and-in-mdia", {
        let mut film = movie(&tracks(2));
        let inner = track(9).trak();
        film.push("moov trak", inner.clone());
        film.push("moov trak:1 mdia", inner);
        film
    });
    for (name, size) in [("wide", Size::Wide), ("size-zero", Size::Says(0))] {
        let mut film = movie(&tracks(2));
        film.at("moov").size = size;
        films.node(0, &format!("two-tracks-in-a-{name}-moov"), film);
    }
}

/// IDs, subtypes and scales at their ends, and numbers that differ in one byte alone.
fn numbers(films: &mut Films) {
    films.tracks(0, "ids-1-and-2-32-less-one", &[track(1), track(u32::MAX)]);
    let bytes = [1, 1 << 8, 1 << 16, 1 << 24, (1 << 24) + 1].map(track);
    films.tracks(0, "ids-that-differ-in-one-byte", &bytes);
    for (name, subtype) in [("zero", [0; 4]), ("of-high-bytes", [0xff; 4])] {
        films.one(0, &format!("subtype-{name}"), |track| track.subtype = subtype);
    }
    films.node(0, "movie-scale-1-and-media-scale-2-32-less-one", {
        scaled(1, &[Track { scale: u32::MAX, edits: edits(&[(1, 119)]), ..track(1) }])
    });
    films.node(0, "movie-scale-2-32-less-one-and-media-scale-1", {
        scaled(u32::MAX, &[Track { scale: 1, edits: edits(&[(u32::MAX, 119)]), ..track(1) }])
    });
    films.node(0, "mvhd-duration-of-no-track", {
        let mut film = movie(&tracks(2));
        film.set("moov mvhd", 24, 121);
        film
    });
}

fn tables(films: &mut Films) {
    films.tracks(0, "no-samples", &[empty_track(1)]);
    let bare = Track { ctts: Some(vec![]), stss: Some(vec![]), edits: edits(&[(5, -1)]), ..empty_track(1) };
    films.tracks(0, "no-samples-empty-ctts-and-stss", &[bare]);
    films.tracks(0, "no-samples-between-two-with-samples", &[track(1), empty_track(2), track(3)]);
    films.one(0, "common-size", |track| track.stsz = Sizes::Common(50, 4));
    films.one(0, "ctts", |track| track.ctts = Some(vec![(3, 0), (1, -4)]));
    films.one(0, "stss", |track| track.stss = Some(vec![1, 4]));
    films.one(0, "stss-without-entries", |track| track.stss = Some(vec![]));
    films.one(0, "ctts-stss-and-edits", |track| {
        track.ctts = Some(vec![(4, i32::MIN)]);
        track.stss = Some(vec![2]);
        track.edits = edits(&[(60, -1), (60, 24)]);
    });
    films.one(0, "last-stsc-entry-for-all-chunks-that-remain", |track| {
        (track.stsc, track.stco) = (vec![(1, 2, 1), (2, 1, 1)], vec![0, 8, 16]);
    });
    // As many samples as are allowed, a byte each: 512 chunks of 2,048 samples, all at the beginning of the file.
    films.one(0, "1048576-samples", |track| {
        (track.duration, track.stts) = (1_048_576, vec![(1_048_576, 1)]);
        (track.stsc, track.stsz, track.stco) = (vec![(1, 2048, 1)], Sizes::Common(1, 1_048_576), vec![0; 512]);
    });
}

/// What comes nearest to refusals 10 to 13.
fn limits(films: &mut Films) {
    let most = Track { duration: u32::MAX, stts: vec![(3, 1 << 30), (1, (1 << 30) - 1)], ..track(1) };
    films.tracks(0, "total-2-32-less-one", std::slice::from_ref(&most));
    films.tracks(0, "two-totals-over-the-limit-together", &[most.clone(), Track { id: 2, ..most }]);
    films.one(0, "total-0-of-four-samples", |track| (track.duration, track.stts) = (0, vec![(4, 0)]));
    films.one(0, "edits-total-2-32-less-one", |track| track.edits = edits(&[(u32::MAX - 1, -1), (1, 0)]));
    films.one(0, "256-edits", |track| track.edits = edits(&[(1, -1); 256]));
    films.of(0, "edits-in-the-last-of-three", 3, 3, |track| track.edits = edits(&[(120, 0), (7, -1)]));
    let end = u32::try_from(movie(&tracks(1)).bytes().len()).unwrap();
    films.one(0, "chunk-of-no-bytes-at-the-end", |track| {
        (track.stsz, track.stco) = (Sizes::Each(vec![0; 4]), vec![end, 0]);
    });
    films.one(0, "chunks-that-end-at-the-end", |track| track.stco = vec![end - 150, end - 70]);
}

pub fn films(films: &mut Films) {
    counts(films);
    apart(films);
    numbers(films);
    tables(films);
    limits(films);
}
