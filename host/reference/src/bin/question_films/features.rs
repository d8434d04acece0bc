//! Features: each of their grounds for 18, and what comes nearest to it.
use super::asks::{CODES, PEAKS};
use super::base::*;
use reference::film::*;

/// A track of sound: nine samples of four bytes, a time unit each.
fn sound(id: u32) -> Track {
    track(id, |track| {
        (track.subtype, track.descriptions) = (*b"soun", vec![description(b"twos", 16)]);
        (track.scale, track.duration, track.stts) = (44100, 9, vec![(9, 1)]);
        (track.stsc, track.stsz) = (vec![(1, 3, 1)], Sizes::Common(4, 9));
        track.stco = vec![2000, 2500, 2200];
    })
}

/// "the wrong subtype"
fn subtypes(films: &mut Films) {
    let other = |id, subtype: &[u8; 4]| track(id, |track| track.subtype = *subtype);
    let film = films.tracks("subtypes", &[sound(1), other(2, b"text"), other(3, b"VIDE"), other(4, b"SOUN")]);
    film.sample(1, &[1, 4, 9, 10]).sample(2, &[1, 2, 3, 4]).ends();
    film.says(&["feature 1 avab: 1411200 = 0x00158880", "feature 1 avvb: refused 18", "feature 1 vfps: refused 18"]);
    film.says(&["feature 1 tvsz: refused 18", "feature 2 avvb: refused 18", "feature 3 tvsz: refused 18"]);
    film.says(&["sample 2 4: 72 48 72 sync 1 chunk 2 2600 70, bytes 70 sum 8715", "feature 4 avab: refused 18"]);
}

/// "no description for tvsz, a divisor that is 0 or absent"
fn nothing(films: &mut Films) {
    let all = [
        empty_track(1),
        Track { descriptions: vec![picture(640, 480)], ..empty_track(2) },
        track(3, |track| (track.duration, track.stts) = (0, vec![(4, 0)])),
        Track { subtype: *b"soun", ..empty_track(4) },
        Track { ctts: Some(vec![]), stss: Some(vec![]), stsz: Sizes::Common(9, 0), ..empty_track(5) },
    ];
    let film = films.tracks("no-samples-or-no-duration", &all);
    film.sample(3, &[1, 2, 3, 4]).ends();
    film.says(&["feature 1 tvsz: refused 18", "feature 1 avvb: refused 18", "feature 1 vfps: refused 18"]);
    film.says(&["feature 2 tvsz: 41943520 = 0x028001e0", "feature 2 avvb: refused 18", "feature 2 vfps: refused 18"]);
    film.says(&["feature 3 tvsz: 20971760 = 0x014000f0", "feature 3 avvb: refused 18", "feature 3 vfps: refused 18"]);
    film.says(&["feature 4 avab: refused 18", "at 3 0: refused 15", "map 3 0: refused 15", "at 2 0: refused 15"]);
    film.says(&["sample 3 4: 0 0 0 sync 1 chunk 2 2600 70, bytes 70 sum 8715"]);
}

/// "greatest width × 65536 + greatest height"
fn pictures(films: &mut Films) {
    let with = |id, list: &[(u16, u16)]| {
        track(id, |track| track.descriptions = list.iter().map(|(width, height)| picture(*width, *height)).collect())
    };
    let long = track(4, |track| {
        // A description that goes on after its height.
        let mut bytes = picture(48, 32);
        bytes.extend([0xff; 50]);
        bytes[3] = 86;
        track.descriptions = vec![bytes, picture(47, 33)];
    });
    let film = films.tracks(
        "pictures",
        &[
            with(1, &[(640, 100), (320, 480), (16, 16)]),
            with(2, &[(65535, 0), (0, 65535)]),
            with(3, &[(1, 2), (3, 1)]),
            long,
        ],
    );
    for id in 1..=4 {
        film.features(id, &[b"tvsz"]);
    }
    film.says(&["feature 1 tvsz: 41943520 = 0x028001e0", "feature 2 tvsz: 4294967295 = 0xffffffff"]);
    film.says(&["feature 3 tvsz: 196610 = 0x00030002", "feature 4 tvsz: 3145761 = 0x00300021"]);
}

/// "Quotients are rounded up."; "a numerator of 2^64 or more, or a result over 4,294,967,295"
fn averages(films: &mut Films) {
    let of = |id, scale, sizes: [u32; 4], stts: &[(u32, u32)]| {
        track(id, |track| {
            (track.scale, track.stsz, track.stts) = (scale, Sizes::Each(sizes.to_vec()), stts.to_vec());
            track.duration = stts.iter().map(|(count, duration)| count * duration).sum();
        })
    };
    let w = [(3, 24), (1, 48)];
    let eleven = [(3, 2), (1, 5)];
    let film = films.tracks(
        "averages",
        &[
            of(1, u32::MAX, [5, 4, 3, 3], &w),
            of(2, u32::MAX, [5, 4, 3, 4], &w),
            // 24 × 1968526677 is eight less than 11 × 2^32.
            of(3, 1_968_526_677, [1, 1, 0, 1], &eleven),
            of(4, 1_968_526_676, [1, 1, 0, 1], &eleven),
            of(5, 600, [1, 0, 0, 0], &[(3, 0), (1, 7)]),
        ],
    );
    for id in 1..=5 {
        film.features(id, &CODES);
    }
    film.says(&["feature 1 avvb: 4294967295 = 0xffffffff", "feature 2 avvb: refused 18"]);
    film.says(&["feature 3 avvb: refused 18", "feature 4 avvb: 4294967294 = 0xfffffffe"]);
    film.says(&["feature 5 avvb: 686 = 0x000002ae", "feature 5 vfps: 5617372 = 0x0055b6dc"]);

    // 46,336 bytes 11,587 times are 2^29 and 24,320 more. Times 8 and 2^32 - 1 that is 2^64 and more: what it is above it, divided by the total,
    // would fit.
    let track = w_with(|track| {
        (track.scale, track.duration) = (u32::MAX, u32::MAX);
        track.stts = vec![(11_586, 370_000), (1, u32::MAX - 11_586 * 370_000)];
        (track.stsc, track.stsz) = (vec![(1, 1, 1)], Sizes::Common(46_336, 11_587));
        track.stco = (0..11_587).map(|i| i % 400).collect();
    });
    let film = films.node(0, "numerator-of-2-64", movie(&[track]).file());
    film.features(1, &CODES).peaks(1, &PEAKS).sample(1, &[1, 11_587, 11_588]).at(1, &[u32::MAX - 1]);
    film.says(&["feature 1 avvb: refused 18", "feature 1 vfps: 760743181 = 0x2d58050d", "feature 1 mvbr: refused 18"]);
}

/// Document 02: "Averages must respect edits."
fn edited_averages(films: &mut Films) {
    let list = |id, entries: &[(u32, i32)]| track(id, |track| track.edits = edits(entries));
    let film = films.tracks(
        "averages-with-edits",
        &[
            // Samples 1 and 2, and then 2 to 4.
            list(1, &[(48, 0), (60, 24)]),
            // A unit less, and one more, than reaches sample 2.
            list(2, &[(24, 0)]),
            list(3, &[(25, 0)]),
            list(4, &[(5, -1), (7, -1)]),
            // One place of sample 1, three times; the sample of no bytes; the last place of all.
            list(5, &[(1, 23), (1, 0), (1, 11), (24, 48), (1, 119)]),
            Track { edits: edits(&[(1, 8), (2, -1), (1, 0)]), ..sound(6) },
            Track { edits: edits(&[(5, -1)]), ..empty_track(7) },
        ],
    );
    for id in 1..=7 {
        film.features(id, &CODES).peaks(id, &PEAKS);
    }
    film.says(&["feature 1 avvb: 9000 = 0x00002328", "feature 2 avvb: 20000 = 0x00004e20"]);
    film.says(&[
        "feature 3 avvb: 15000 = 0x00003a98",
        "feature 4 avvb: refused 18",
        "feature 4 vfps: 1638400 = 0x00190000",
    ]);
    // 370 bytes over 144 units.
    film.says(&["feature 5 avvb: 12334 = 0x0000302e", "feature 5 mvbr: 8800 = 0x00002260"]);
    film.says(&["feature 6 avab: 1411200 = 0x00158880", "feature 7 avvb: refused 18"]);

    // 1,024 samples of 2,049 bytes: shown 255 times the numerator is below 2^64, shown 256 times it is not, though the quotient is the same.
    let often = |times: usize| {
        let (count, duration) = (1024, u32::MAX / 1024);
        let shown = w_with(|track| {
            (track.scale, track.duration) = (u32::MAX, count * duration);
            (track.stts, track.edits) = (vec![(count, duration)], edits(&vec![(6000, 0); times]));
            (track.stsc, track.stsz) = (vec![(1, 1, 1)], Sizes::Common(2049, count));
            track.stco = (0..count).collect();
        });
        Movie { scale: 6000, ..movie(&[shown]) }.file()
    };
    for times in [1, 255, 256] {
        let film = films.node(0, &format!("all-shown-{times}-times"), often(times));
        film.features(1, &[b"avvb"]);
        film.says(&[if times < 256 { "feature 1 avvb: 16785412 = 0x01002004" } else { "feature 1 avvb: refused 18" }]);
    }
}

/// "65536 × scale / least non-zero duration"
fn frame_rates(films: &mut Films) {
    let of = |id, scale, stts: &[(u32, u32)]| {
        let duration = stts.iter().map(|(count, duration)| count * duration).sum();
        track(id, |track| (track.scale, track.duration, track.stts) = (scale, duration, stts.to_vec()))
    };
    let film = films.tracks(
        "frame-rates",
        &[
            of(1, 65535, &[(3, 2), (1, 1)]),
            of(2, 65536, &[(3, 2), (1, 1)]),
            of(3, 600, &[(1, 0), (1, 40), (1, 20), (1, 60)]),
            of(4, u32::MAX, &[(3, 1 << 30), (1, (1 << 30) - 1)]),
        ],
    );
    for id in 1..=4 {
        film.features(id, &CODES);
    }
    film.says(&["feature 1 vfps: 4294901760 = 0xffff0000", "feature 2 vfps: refused 18"]);
    film.says(&["feature 3 vfps: 1966080 = 0x001e0000", "feature 4 vfps: 262145 = 0x00040001"]);
    film.says(&["feature 4 avvb: 1760 = 0x000006e0"]);
}

pub fn films(films: &mut Films) {
    subtypes(films);
    nothing(films);
    pictures(films);
    averages(films);
    edited_averages(films);
    frame_rates(films);
}
