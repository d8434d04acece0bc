//! Film W, and what document 01 says of it after a change.
use super::base::*;
use reference::film::*;

fn w_film(change: impl FnOnce(&mut Track)) -> Node {
    movie(&[w_with(change)]).file_of(4096)
}

fn w_itself(films: &mut Films) {
    films
        .node(0, "w", w())
        .at(1, &[0, 23, 24, 47, 48, 71, 72, 119, 120])
        .sample(1, &[0, 1, 2, 3, 4, 5])
        .features(1, &[b"avvb", b"vfps", b"tvsz", b"avab", b"mvbr", b"mabr"])
        .peaks(1, &[b"mvbr", b"mabr"])
        // Codes that are no feature's, or are spelled otherwise; and of those that are, the ones that no run gives a value.
        .features(
            1,
            &[&[0; 4], &[0, 0, 0, 1], &[0xff; 4], b"AVVB", b"avvc", b"bvva", b"vide", b"vfmt", b"MVBR", b"mvbs"],
        )
        .peaks(1, &[&[0; 4], &[0xff; 4], b"avvb", b"avab", b"tvsz", b"vfps", b"MVBR", b"mvbs"])
        .map(1, &[0, 23, 119, 120])
        .profile(0, &[0, 1, 64])
        .profile(1, &[0, 1, 64])
        .ends()
        .strangers()
        .says(&["at 1 0: 1 entry 1", "at 1 23: 1 entry 1", "at 1 24: 2 entry 1", "at 1 71: 3 entry 1"])
        .says(&["at 1 72: 4 entry 2", "at 1 119: 4 entry 2", "at 1 120: refused 15"])
        .says(&[
            "sample 1 0: refused 15, bytes 0 sum 0",
            "sample 1 1: 0 24 0 sync 1 chunk 1 1000 100, bytes 100 sum 5554",
            "sample 1 2: 24 24 24 sync 1 chunk 1 1100 50, bytes 50 sum 6025",
            "sample 1 3: 48 24 48 sync 1 chunk 1 1150 0, bytes 0 sum 0",
            "sample 1 4: 72 48 72 sync 1 chunk 2 900 70, bytes 70 sum 12705",
            "sample 1 5: refused 15, bytes 0 sum 0",
        ])
        .says(&["feature 1 avvb: 8800 = 0x00002260", "feature 1 vfps: 1638400 = 0x00190000"])
        .says(&["feature 1 avab: refused 18", "feature 1 41565642: refused 18", "feature 1 ffffffff: refused 18"])
        .says(&["feature 1 mvbr: 8800 = 0x00002260", "feature 1 mabr: refused 18"])
        .says(&["peak 1 mvbr: from 1 count 4", "peak 1 mabr: refused 18", "peak 1 avvb: refused 18"])
        .says(&["peak 1 00000000: refused 18", "peak 999 avvb: refused 14", "peak 0 mvbr: refused 14"])
        .says(&["profile 1 room 0: 0 records, rest untouched", "profile 999 room 0: refused 14, untouched"])
        .says(&["sample 999 0: refused 14, bytes 0 sum 0", "feature 999 00000000: refused 14", "map 0 0: refused 14"]);
}

pub fn films(films: &mut Films) {
    w_itself(films);
    let ntsc = w_film(|track| (track.scale, track.duration, track.stts) = (30000, 5005, vec![(3, 1001), (1, 2002)]));
    films.node(0, "w-scale-30000-and-least-duration-1001", ntsc).ends().says(&["feature 1 vfps: 1964116 = 0x001df854"]);
    // "the W case with 121 .. is accepted elsewhere": the media ends where the samples do.
    films.node(0, "w-mdhd-121", w_film(|track| track.duration = 121)).each(1).ends().strangers().says(&[
        "sample 1 4: 72 48 72 sync 1 chunk 2 900 70, bytes 70 sum 12705",
        "at 1 119: 4 entry 2",
        "at 1 120: refused 15",
        "map 1 119: 119",
        "map 1 120: refused 15",
        "feature 1 avvb: 8800 = 0x00002260",
        "peak 1 mvbr: from 1 count 4",
    ]);
    for media in [24, 60] {
        let film = w_film(|track| track.edits = edits(&[(60, -1), (60, media)]));
        let film = films.node(0, &format!("w-edits-60-empty-and-60-from-{media}"), film);
        film.map(1, &[0, 59, 60, 61, 119, 120, u32::MAX]).at(1, &[0, 59, 60, 119, 120]);
        film.says(&["map 1 59: nothing", "map 1 120: refused 15", "at 1 119: 4 entry 2"]);
        film.features(1, &[b"avvb", b"avab", b"vfps", b"mvbr"]);
        film.says(if media == 24 { &["map 1 60: 24", "map 1 119: 83"] } else { &["map 1 60: 60", "map 1 119: 119"] });
        // Samples 2 to 4, "120 bytes over 96 units", and samples 3 and 4, 70 bytes over 72. Peaks are taken over the whole media.
        film.says(&[if media == 24 {
            "feature 1 avvb: 6000 = 0x00001770"
        } else {
            "feature 1 avvb: 4667 = 0x0000123b"
        }]);
        film.says(&["feature 1 mvbr: 8800 = 0x00002260", "feature 1 avab: refused 18"]);
    }
    films.node(0, "w-second-chunk-at-4026", w_film(|track| track.stco[1] = 4026)).sample(1, &[3, 4, 5]).says(&[
        // 4026 is 10 above 16 times 251.
        "sample 1 4: 72 48 72 sync 1 chunk 2 4026 70, bytes 70 sum 3115",
    ]);
}
