//! Samples of no duration, and durations that fill 32 bits: "samples from the one at a to the one at b-1, all numbers between included".
use super::base::*;
use reference::film::*;

/// Samples of no duration at either edge of the media and inside it, in one chunk and each in its own.
fn none(films: &mut Films) {
    let durations = [(1, 0), (1, 60), (2, 0), (1, 60), (1, 0)];
    let film = films.one("samples-of-no-duration-in-one-chunk", |track| {
        lasting(track, &durations);
        (track.stsc, track.stco) = (vec![(1, 6, 1)], vec![1000]);
        track.stsz = Sizes::Each(vec![1, 2, 4, 8, 16, 32]);
    });
    film.cut(1, &[(0, 120), (59, 61)]).tight(1, &[(0, 120)]).grid(1, &[0, 1, 59, 60, 61, 119, 120]).ends();
    film.says(&[
        // Neither the first sample nor the last is included, and the two inside are.
        "stretch 1 0 120 room 2: 1 pairs, 30 bytes: 1001+30, rest untouched",
        "stretch 1 59 61 room 2: 1 pairs, 30 bytes: 1001+30, rest untouched",
        "stretch 1 0 60 room 2: 1 pairs, 2 bytes: 1001+2, rest untouched",
        "stretch 1 60 120 room 2: 1 pairs, 16 bytes: 1015+16, rest untouched",
    ]);

    let film = films.one("samples-of-no-duration-in-a-chunk-each", |track| {
        lasting(track, &durations);
        a_chunk_each(track, &[(1000, 1), (1010, 2), (1020, 4), (1030, 8), (1040, 16), (1050, 32)]);
    });
    film.cut(1, &[(0, 120), (59, 61)]).tight(1, &[(0, 120)]).grid(1, &[0, 1, 59, 60, 61, 119, 120]).ends();
    film.says(&[
        "stretch 1 0 120 room 8: 4 pairs, 30 bytes: 1010+2 1020+4 1030+8 1040+16, rest untouched",
        "stretch 1 0 60 room 2: 1 pairs, 2 bytes: 1010+2, rest untouched",
        "stretch 1 60 120 room 2: 1 pairs, 16 bytes: 1040+16, rest untouched",
    ]);
}

/// Chunks that hold only such samples, and chunks that begin or end with them.
fn chunks(films: &mut Films) {
    let film = films.one("chunks-of-no-duration", |track| {
        lasting(track, &[(2, 0), (2, 30), (2, 0), (2, 30), (2, 0)]);
        (track.stsc, track.stco) = (vec![(1, 2, 1)], vec![1200, 1000, 900, 1100, 950]);
        track.stsz = Sizes::Each((1..=10).collect());
    });
    film.cut(1, &[(0, 120), (30, 90), (59, 61)]).grid(1, &[0, 1, 29, 30, 59, 60, 61, 90, 120]).ends();
    film.says(&[
        "stretch 1 0 120 room 6: 3 pairs, 33 bytes: 1000+7 900+11 1100+15, rest untouched",
        "stretch 1 59 61 room 6: 3 pairs, 22 bytes: 1003+4 900+11 1100+7, rest untouched",
        "stretch 1 0 60 room 2: 1 pairs, 7 bytes: 1000+7, rest untouched",
        "stretch 1 60 120 room 2: 1 pairs, 15 bytes: 1100+15, rest untouched",
    ]);

    let film = films.one("chunks-that-begin-or-end-with-no-duration", |track| {
        lasting(track, &[(2, 20), (2, 0), (1, 20), (3, 0), (1, 20)]);
        (track.stsc, track.stco) = (vec![(1, 3, 1)], vec![1200, 1000, 1100]);
        track.stsz = Sizes::Each(vec![1, 2, 4, 8, 16, 32, 64, 28, 7]);
    });
    film.cut(1, &[(0, 80), (20, 60), (39, 41), (59, 61)]).grid(1, &[0, 19, 20, 39, 40, 41, 59, 60, 80]).ends();
    film.says(&[
        "stretch 1 39 41 room 4: 2 pairs, 30 bytes: 1201+6 1000+24, rest untouched",
        "stretch 1 59 61 room 4: 2 pairs, 147 bytes: 1008+48 1100+99, rest untouched",
        "stretch 1 60 80 room 2: 1 pairs, 7 bytes: 1192+7, rest untouched",
    ]);

    // Neither duration nor bytes: the chunk is touched all the same.
    let film = films.one("chunk-of-no-duration-and-no-bytes", |track| {
        lasting(track, &[(1, 60), (1, 0), (1, 60)]);
        a_chunk_each(track, &[(1000, 5), (1280, 0), (1010, 6)]);
    });
    film.cut(1, &[(0, 120), (59, 61)]).tight(1, &[(0, 120)]).ends();
    film.says(&["stretch 1 59 61 room 6: 3 pairs, 11 bytes: 1000+5 1280+0 1010+6, rest untouched"]);
}

/// No time at all, or no samples: every stretch lies outside.
fn nothing(films: &mut Films) {
    let all = [
        empty_track(1),
        Track { descriptions: vec![picture(640, 480)], ..empty_track(2) },
        track(3, |track| lasting(track, &[(4, 0)])),
    ];
    let film = films.tracks("no-samples-or-no-duration", &all);
    film.ends().says(&["stretch 1 0 1 room 4: refused 15, untouched", "slip 3 0 1 room 16: refused 15, untouched"]);
}

/// Totals of 2^32 - 1.
fn great(films: &mut Films) {
    let half = 1 << 31;
    let all = [
        track(1, |track| {
            (track.duration, track.stts) = (u32::MAX, vec![(1, half), (1, 0), (1, half - 1), (1, 0)]);
            track.scale = u32::MAX;
        }),
        track(2, |track| {
            (track.duration, track.stts) = (u32::MAX, vec![(1, u32::MAX)]);
            a_chunk_each(track, &[(3000, 72)]);
        }),
    ];
    let film = films.tracks("total-of-2-32-less-one", &all);
    film.cut(1, &[(0, u32::MAX), (half - 1, half + 1), (half, u32::MAX), (u32::MAX - 1, u32::MAX)]);
    film.cut(2, &[(0, u32::MAX), (u32::MAX - 1, u32::MAX), (half, half + 1)]).tight(1, &[(0, u32::MAX)]).ends();
    film.says(&[
        "stretch 1 0 4294967295 room 2: 1 pairs, 150 bytes: 2700+150, rest untouched",
        "stretch 1 2147483648 4294967295 room 2: 1 pairs, 0 bytes: 2850+0, rest untouched",
        "slip 1 2147483648 4294967295 room 21: 21 bytes 0101ffffffff0f8080808008ffffffff0f01a21600, rest untouched, reads back",
        "stretch 1 4294967295 4294967295 room 4: refused 15, untouched",
    ]);
}

pub fn films(films: &mut Films) {
    none(films);
    chunks(films);
    nothing(films);
    great(films);
}
