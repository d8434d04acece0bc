//! Samples by number, with their bytes, and by media time: what each table says of them.
use super::base::*;
use reference::film::*;

/// "composition time (decode time plus signed offset, 0 without ctts)"
fn compositions(films: &mut Films) {
    let below_zero = track(1, |track| track.ctts = Some(vec![(1, -1), (2, i32::MIN), (1, i32::MAX)]));
    // Entries that end elsewhere than those of stts.
    let across = track(2, |track| track.ctts = Some(vec![(1, 10), (1, -25), (1, 0), (1, -72)]));
    // The last sample has the greatest decode time that there is, and the greatest composition time.
    let great = track(3, |track| {
        (track.duration, track.stts) = (u32::MAX, vec![(1, 1 << 31), (1, 0), (1, (1 << 31) - 1), (1, 0)]);
        track.ctts = Some(vec![(2, 0), (1, i32::MIN), (1, i32::MAX)]);
    });
    let film = films.tracks("ctts", &[below_zero, across, great]);
    for id in [1, 2, 3] {
        film.sample(id, &[1, 2, 3, 4]);
    }
    film.at(3, &[(1 << 31) - 1, 1 << 31]).ends().says(&[
        "sample 1 1: 0 24 -1 sync 1 chunk 1 2700 100, bytes 100 sum 14161",
        "sample 1 2: 24 24 -2147483624 sync 1 chunk 1 2800 50, bytes 50 sum 3175",
        "sample 1 3: 48 24 -2147483600 sync 1 chunk 1 2850 0, bytes 0 sum 0",
        "sample 1 4: 72 48 2147483719 sync 1 chunk 2 2600 70, bytes 70 sum 8715",
        "sample 2 2: 24 24 -1 sync 1 chunk 1 2800 50, bytes 50 sum 3175",
        "sample 2 4: 72 48 0 sync 1 chunk 2 2600 70, bytes 70 sum 8715",
        "sample 3 3: 2147483648 2147483647 0 sync 1 chunk 1 2850 0, bytes 0 sum 0",
        "sample 3 4: 4294967295 0 6442450942 sync 1 chunk 2 2600 70, bytes 70 sum 8715",
        "at 3 2147483648: 3 entry 3",
        "at 3 4294967294: 3 entry 3",
        "at 3 4294967295: refused 15",
    ]);
}

/// "whether sync (all are, without stss)"
fn syncs(films: &mut Films) {
    let lists = [None, Some(vec![]), Some(vec![1, 4]), Some(vec![2, 3]), Some(vec![1, 2, 3, 4])];
    let all: Vec<Track> = (1..).zip(lists).map(|(id, list)| track(id, |track| track.stss = list)).collect();
    let film = films.tracks("stss", &all);
    for id in 1..=5 {
        film.sample(id, &[1, 2, 3, 4, 5]);
    }
    film.says(&[
        "sample 1 3: 48 24 48 sync 1 chunk 1 2850 0, bytes 0 sum 0",
        "sample 2 1: 0 24 0 not sync 1 chunk 1 2700 100, bytes 100 sum 14161",
        "sample 3 4: 72 48 72 sync 1 chunk 2 2600 70, bytes 70 sum 8715",
        "sample 4 4: 72 48 72 not sync 1 chunk 2 2600 70, bytes 70 sum 8715",
    ]);
}

/// "An stsc entry holds from its first chunk up to the next entry's, the last one for all that remain."
fn chunks(films: &mut Films) {
    let film = films.one("three-stsc-entries-for-seven-chunks", |track| {
        track.descriptions = vec![picture(320, 240), picture(160, 120), picture(80, 60)];
        (track.duration, track.stts) = (110, vec![(5, 10), (12, 5)]);
        track.stsc = vec![(1, 2, 1), (3, 1, 3), (4, 3, 2)];
        track.stsz = Sizes::Each((1..=17).collect());
        track.stco = vec![1000, 900, 1200, 1100, 950, 800, 1230];
    });
    film.sample(1, &(0..=18).collect::<Vec<u32>>()).at(1, &[9, 10, 49, 50, 54, 55, 104, 105, 109]).ends();
    film.says(&[
        "sample 1 5: 40 10 40 sync 3 chunk 3 1200 5, bytes 5 sum 990",
        "sample 1 6: 50 5 50 sync 2 chunk 4 1100 6, bytes 6 sum 591",
        "sample 1 17: 105 5 105 sync 2 chunk 7 1261 17, bytes 17 sum 238",
        "at 1 49: 5 entry 1",
        "at 1 50: 6 entry 2",
        "at 1 109: 17 entry 2",
    ]);

    let film = films.one("one-stsc-entry-for-five-chunks", |track| {
        (track.stts, track.stsc) = (vec![(5, 24)], vec![(1, 1, 1)]);
        (track.stsz, track.stco) = (Sizes::Each(vec![9, 8, 7, 6, 5]), vec![1200, 1100, 1000, 900, 800]);
    });
    film.sample(1, &[1, 2, 3, 4, 5, 6]).ends();
    // 800 is 47 above three times 251.
    film.says(&["sample 1 5: 96 24 96 sync 1 chunk 5 800 5, bytes 5 sum 245", "at 1 119: 5 entry 1"]);

    // Two chunks with a byte in common, one that a third repeats, and one that begins with the file: "offset (chunk offset plus sizes before it
    // in the chunk)".
    let film = films.one("chunks-that-overlap", |track| {
        (track.stsc, track.stsz) = (vec![(1, 1, 1)], Sizes::Each(vec![100, 50, 100, 8]));
        track.stco = vec![1000, 1099, 1000, 0];
    });
    film.sample(1, &[1, 2, 3, 4, 5]).ends();
    film.says(&["sample 1 3: 48 24 48 sync 1 chunk 3 1000 100, bytes 100 sum 5554"]);
}

fn sizes(films: &mut Films) {
    let film = films.one("common-size", |track| {
        (track.stts, track.stsc) = (vec![(6, 20)], vec![(1, 4, 1), (2, 2, 1)]);
        track.stsz = Sizes::Common(37, 6);
    });
    film.sample(1, &[1, 2, 3, 4, 5, 6, 7]).ends();
    // 1111 is 107 above four times 251.
    film.says(&["sample 1 4: 60 20 60 sync 1 chunk 1 1111 37, bytes 37 sum 4625", "feature 1 avvb: 8880 = 0x000022b0"]);

    let film = films.one("samples-of-no-bytes", |track| {
        (track.stsz, track.descriptions) = (Sizes::Each(vec![0; 4]), vec![picture(0, 0)]);
        // One byte further and the chunk would pass the end.
        track.stco[1] = u32::try_from(SMALL).unwrap();
    });
    film.sample(1, &[1, 2, 3, 4, 5]).ends();
    film.says(&[
        "sample 1 4: 72 48 72 sync 1 chunk 2 1280 0, bytes 0 sum 0",
        "feature 1 avvb: 0 = 0x00000000",
        "feature 1 tvsz: 0 = 0x00000000",
    ]);
}

/// "A zero-duration sample returned for the time at which it stands" is shut out.
fn durations(films: &mut Films) {
    let film = films.one("samples-of-no-duration", |track| {
        track.stts = vec![(1, 0), (1, 60), (2, 0), (1, 60), (1, 0)];
        (track.stsc, track.stco) = (vec![(1, 6, 1)], vec![1000]);
        track.stsz = Sizes::Each(vec![1, 2, 4, 8, 16, 32]);
    });
    film.sample(1, &[1, 2, 3, 4, 5, 6, 7]).at(1, &[0, 1, 59, 60, 61, 119, 120]).ends();
    film.says(&[
        "at 1 0: 2 entry 2",
        "at 1 59: 2 entry 2",
        "at 1 60: 5 entry 4",
        "at 1 119: 5 entry 4",
        "at 1 120: refused 15",
    ]);
    film.says(&[
        "sample 1 6: 120 0 120 sync 1 chunk 1 1031 32, bytes 32 sum 1360",
        "feature 1 vfps: 655360 = 0x000a0000",
    ]);
}

/// Tables of many entries. Sizes, durations, offsets and chunks go by different beats.
fn many(films: &mut Films) {
    let beat = |n: u32, by: u32| (0..n).map(|i| i * 7 % by).collect::<Vec<u32>>();
    let durations: Vec<(u32, u32)> = beat(60, 11).into_iter().map(|duration| (10, duration)).collect();
    let shifts = beat(75, 13).into_iter().map(|shift| (8, i32::try_from(shift).unwrap() - 6)).collect();
    let track = w_with(|track| {
        track.duration = durations.iter().map(|(count, duration)| count * duration).sum();
        (track.stts, track.ctts) = (durations, Some(shifts));
        track.stss = Some((1..=600).step_by(25).collect());
        track.descriptions = vec![picture(32, 24), picture(24, 32)];
        track.stsc = vec![(1, 4, 1), (11, 8, 2), (21, 2, 1), (31, 10, 2), (41, 6, 1), (51, 6, 2)];
        track.stsz = Sizes::Each(beat(600, 9));
        track.stco = beat(100, 101).into_iter().map(|i| 5000 + 30 * i).collect();
    });
    let film = films.node(0, "600-samples", movie(&[track]).file_of(8192));
    film.sample(1, &[40, 41, 120, 121, 140, 141, 151, 240, 241, 299, 300, 301, 306, 307, 576, 577, 594, 595, 599]);
    film.at(1, &[69, 70, 71, 999, 1000, 1001, 2000, 2500, 2900]).map(1, &[1000, 2000]).ends();

    // As many samples as are allowed, a byte each: 512 chunks of 2,048 samples.
    let track = w_with(|track| {
        (track.duration, track.stts) = (1_048_576, vec![(1_048_576, 1)]);
        (track.stsc, track.stsz) = (vec![(1, 2048, 1)], Sizes::Common(1, 1_048_576));
        track.stco = (0..512).collect();
    });
    let film = films.node(0, "1048576-samples", movie(&[track]).file_of(3000));
    film.sample(1, &[2048, 2049, 1_048_575, 1_048_576, 1_048_577]).at(1, &[1_048_575, 1_048_576]);
    // 511 + 2047 is 48 above ten times 251.
    film.says(&[
        "sample 1 1048576: 1048575 1 1048575 sync 1 chunk 512 2558 1, bytes 1 sum 48",
        "at 1 1048575: 1048576 entry 1",
    ]);
}

fn wide(films: &mut Films) {
    let film = films.node(0, "moov-last-and-wide", moov_last());
    film.sample(1, &[1, 2, 3, 4]).ends();
    film.says(&["sample 1 1: 0 24 0 sync 1 chunk 1 8 100, bytes 100 sum 5750"]);
}

pub fn films(films: &mut Films) {
    compositions(films);
    syncs(films);
    chunks(films);
    sizes(films);
    durations(films);
    many(films);
    wide(films);
}
