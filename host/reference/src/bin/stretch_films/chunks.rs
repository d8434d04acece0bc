//! Stretches cut inside chunks, across chunks and at their edges: "One pair (offset, length) for each chunk touched, in chunk order".
use super::base::*;
use reference::film::*;

/// "An stsc entry holds from its first chunk up to the next entry's, the last one for all that remain."
fn entries(films: &mut Films) {
    let film = films.one("three-stsc-entries-for-seven-chunks", |track| {
        track.descriptions = vec![picture(320, 240), picture(160, 120), picture(80, 60)];
        lasting(track, &[(5, 10), (12, 5)]);
        track.stsc = vec![(1, 2, 1), (3, 1, 3), (4, 3, 2)];
        track.stsz = Sizes::Each((1..=17).collect());
        track.stco = vec![1000, 900, 1200, 1100, 950, 800, 1230];
    });
    film.cut(1, &[(0, 110), (5, 105), (20, 65), (25, 60)]).tight(1, &[(0, 110), (20, 50)]);
    film.grid(1, &[0, 10, 20, 40, 49, 50, 55, 64, 65, 80, 95, 96, 110]).ends();
    film.says(&[
        // From the second sample of the first chunk to the first of the last.
        "stretch 1 10 100 room 14: 7 pairs, 119 bytes: 1001+2 900+7 1200+5 1100+21 950+30 800+39 1230+15, rest untouched",
        "stretch 1 20 65 room 6: 3 pairs, 33 bytes: 900+7 1200+5 1100+21, rest untouched",
        "stretch 1 49 50 room 2: 1 pairs, 5 bytes: 1200+5, rest untouched",
        "stretch 1 55 64 room 2: 1 pairs, 15 bytes: 1106+15, rest untouched",
    ]);
    film.exact(1, &[(10, 100)]);

    let film = films.one("last-stsc-entry-for-four-chunks", |track| {
        lasting(track, &[(13, 10)]);
        track.stsc = vec![(1, 1, 1), (2, 3, 1)];
        track.stsz = Sizes::Each((1..=13).collect());
        track.stco = vec![1000, 1010, 1050, 1100, 1150];
    });
    film.cut(1, &[(0, 130), (10, 70)]).grid(1, &[0, 9, 10, 20, 40, 50, 70, 99, 100, 101, 130]).ends();
    film.says(&["stretch 1 100 130 room 2: 1 pairs, 36 bytes: 1150+36, rest untouched"]);

    let film = films.one("an-stsc-entry-for-each-chunk", |track| {
        lasting(track, &[(21, 3)]);
        track.stsc = (1..=6).map(|chunk| (chunk, chunk, 1)).collect();
        track.stsz = Sizes::Each((1..=21).map(|n| n * 5 % 8 + 1).collect());
        track.stco = vec![1200, 1150, 1100, 1050, 1000, 950];
    });
    film.cut(1, &[(0, 63), (3, 45), (2, 46)]).grid(1, &[0, 3, 9, 18, 30, 31, 44, 45, 60, 63]).ends();
}

fn whole(films: &mut Films) {
    let film = films.one("a-chunk-for-each-sample", |track| {
        lasting(track, &[(5, 24)]);
        a_chunk_each(track, &[(1200, 9), (1100, 8), (1000, 7), (900, 6), (800, 5)]);
    });
    film.cut(1, &[(0, 120), (24, 96), (23, 97)]).tight(1, &[(0, 120)]).ends();
    film.says(&["stretch 1 23 97 room 10: 5 pairs, 35 bytes: 1200+9 1100+8 1000+7 900+6 800+5, rest untouched"]);

    let film = films.one("all-samples-in-one-chunk", |track| {
        lasting(track, &[(6, 20)]);
        (track.stsc, track.stco) = (vec![(1, 6, 1)], vec![1000]);
        track.stsz = Sizes::Each(vec![1, 2, 4, 8, 16, 32]);
    });
    film.cut(1, &[(0, 120), (20, 100)]).tight(1, &[(20, 100)]).grid(1, &[0, 20, 40, 60, 80, 100, 120]).ends();
    film.says(&["stretch 1 20 100 room 2: 1 pairs, 30 bytes: 1001+30, rest untouched"]);
}

/// Chunks may overlap, since refusal 12 looks at each chunk alone: a byte is then counted as often as it is included.
fn overlaps(films: &mut Films) {
    let film = films.one("chunks-that-overlap", |track| {
        lasting(track, &[(7, 20)]);
        a_chunk_each(track, &[(1000, 100), (1000, 100), (1099, 50), (1000, 100), (0, 8), (0, 1280), (1279, 1)]);
    });
    film.cut(1, &[(0, 140), (0, 60), (19, 121)]).tight(1, &[(0, 60)]).ends();
    film.says(&[
        "stretch 1 0 60 room 6: 3 pairs, 250 bytes: 1000+100 x2 1099+50, rest untouched",
        "stretch 1 0 140 room 14: 7 pairs, 1639 bytes: 1000+100 x2 1099+50 1000+100 0+8 0+1280 1279+1, rest untouched",
    ]);
}

/// The total of bytes passes 2^32 with chunks that are all the same bytes. A film of N bytes has under N/4 chunks of up to N bytes, so that it
/// takes over 2^17 bytes. Chunk 2^15 reaches 2^32.
fn beyond(films: &mut Films) {
    let track = w_with(|track| {
        lasting(track, &[(32_770, 2)]);
        (track.stsc, track.stsz) = (vec![(1, 1, 1)], Sizes::Common(131_072, 32_770));
        track.stco = vec![9; 32_770];
    });
    let film = films.node(0, "total-of-bytes-beyond-2-32", movie(&[track]).file());
    film.stretch(1, (0, 65_540), &[65_540, 65_539, 256, 0]).stretch(1, (0, 65_534), &[65_534]);
    film.stretch(1, (0, 65_535), &[65_536, 65_535]).stretch(1, (2, 65_540), &[65_540]).stretch(1, (0, 65_541), &[4]);
    film.stretch(1, (0, 65_538), &[65_538]).stretch(1, (65_539, 65_540), &[2, 3]).slip(1, (0, 65_540), &[1024]);
    film.slip(1, (65_336, 65_540), &[1024]).stretch(1, (0, 200), &[256]).stretch(1, (200, 65_540), &[65_340]);
    film.says(&[
        "stretch 1 0 65540 room 65540: 32770 pairs, 4295229440 bytes: 9+131072 x32770, rest untouched",
        "stretch 1 0 65534 room 65534: 32767 pairs, 4294836224 bytes: 9+131072 x32767, rest untouched",
        "stretch 1 0 65535 room 65536: 32768 pairs, 4294967296 bytes: 9+131072 x32768, rest untouched",
        "stretch 1 0 65540 room 65539: refused 16, untouched",
    ]);
}

/// Tables of many entries. Sizes, durations, offsets and chunks go by different beats.
fn many(films: &mut Films) {
    let beat = |n: u32, by: u32| (0..n).map(|i| i * 7 % by).collect::<Vec<u32>>();
    let durations: Vec<(u32, u32)> = beat(60, 11).into_iter().map(|duration| (10, duration)).collect();
    let track = w_with(|track| {
        lasting(track, &durations);
        track.descriptions = vec![picture(32, 24), picture(24, 32)];
        track.stsc = vec![(1, 4, 1), (11, 8, 2), (21, 2, 1), (31, 10, 2), (41, 6, 1), (51, 6, 2)];
        track.stsz = Sizes::Each(beat(600, 9));
        track.stco = beat(100, 101).into_iter().map(|i| 5000 + 30 * i).collect();
    });
    let film = films.node(0, "600-samples", movie(&[track]).file_of(8192));
    film.cut(1, &[(0, 2940), (69, 71), (500, 1000), (1000, 1001), (700, 2200)]);
    film.grid(1, &[0, 69, 70, 1000, 1004, 1999, 2500, 2900]).ends();

    // As many samples as are allowed, a byte each: 512 chunks of 2,048 samples.
    let track = w_with(|track| {
        lasting(track, &[(1_048_576, 1)]);
        (track.stsc, track.stsz) = (vec![(1, 2048, 1)], Sizes::Common(1, 1_048_576));
        track.stco = (0..512).collect();
    });
    let film = films.node(0, "1048576-samples", movie(&[track]).file_of(3000));
    film.stretch(1, (0, 1_048_576), &[1024, 1023]).stretch(1, (2047, 2049), &[4]).stretch(1, (2048, 4096), &[2]);
    film.stretch(1, (1_048_575, 1_048_576), &[2]).slip(1, (2047, 1_000_000), &[1024]).slip(1, (2047, 4097), &[64]);
    film.stretch(1, (0, 1_048_577), &[4]);
    film.says(&[
        "stretch 1 2047 2049 room 4: 2 pairs, 2 bytes: 2047+1 1+1, rest untouched",
        "stretch 1 1048575 1048576 room 2: 1 pairs, 1 bytes: 2558+1, rest untouched",
    ]);
}

fn wide(films: &mut Films) {
    let film = films.node(0, "moov-last-and-wide", moov_last());
    film.cut(1, &[(0, 120), (24, 73)]).ends();
    film.says(&["stretch 1 24 73 room 4: 2 pairs, 120 bytes: 108+50 200+70, rest untouched"]);
}

pub fn films(films: &mut Films) {
    entries(films);
    whole(films);
    overlaps(films);
    beyond(films);
    many(films);
    wide(films);
}
