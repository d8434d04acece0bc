//! Movie time to media time: scales that differ, edit lists, and times at the ends.
use super::base::*;
use reference::film::*;

/// "floor((t-S) × media scale / movie scale)"
fn scales(films: &mut Films) {
    let faster = track(1, |track| track.scale = 900);
    let slower = track(3, |track| track.scale = 7);
    let all = [
        faster.clone(),
        Track { id: 2, edits: edits(&[(3, 10), (1, -1), (2, 0)]), ..faster },
        slower.clone(),
        Track { id: 4, edits: edits(&[(86, 119), (87, 60)]), ..slower },
    ];
    // The movie's own duration plays no part.
    let film = films.movie("media-scales-900-and-7-of-600", Movie { duration: 5, ..movie(&all) });
    film.map(1, &[0, 1, 2, 3, 79, 80, 119, 120]).map(2, &[0, 1, 2, 3, 4, 5, 6]);
    film.map(3, &[0, 85, 86, 119, 120, 10285, 10286]).map(4, &[0, 85, 86, 171, 172, 173]).ends();
    film.says(&["map 1 1: 1", "map 1 2: 3", "map 1 79: 118", "map 1 80: refused 15"]);
    film.says(&["map 2 1: 11", "map 2 2: 13", "map 2 3: nothing", "map 2 4: 0", "map 2 5: 1", "map 2 6: refused 15"]);
    film.says(&["map 3 85: 0", "map 3 86: 1", "map 3 10285: 119", "map 3 10286: refused 15"]);
    film.says(&["map 4 85: 119", "map 4 86: 60", "map 4 171: 60", "map 4 172: 61", "map 4 173: refused 15"]);
    // The features go by the media's scale. Both entries of track 2 that show media cover sample 1 alone.
    film.says(&["feature 1 avvb: 13200 = 0x00003390", "feature 2 avvb: 30000 = 0x00007530"]);

    let whole =
        |id| track(id, |track| (track.duration, track.stts) = (u32::MAX, vec![(3, 1 << 30), (1, (1 << 30) - 1)]));
    let all = [
        Track { scale: u32::MAX, ..whole(1) },
        Track { scale: u32::MAX, edits: edits(&[(1, 119)]), ..track(2, |_| ()) },
        // The last place of its entry is just below the total.
        Track { scale: 3, edits: edits(&[(u32::MAX / 3, 0)]), ..whole(3) },
    ];
    let film = films.movie("movie-scale-1", Movie { scale: 1, ..movie(&all) });
    film.map(1, &[0, 1, 2]).map(2, &[0, 1]).map(3, &[0, 1, 1_431_655_764, 1_431_655_765]).ends();
    film.says(&["map 1 0: 0", "map 1 1: refused 15", "map 1 4294967295: refused 15", "map 2 0: 119"]);
    film.says(&["map 3 1: 3", "map 3 1431655764: 4294967292", "map 3 1431655765: refused 15"]);

    let all = [
        Track { scale: 1, ..track(1, |_| ()) },
        Track { scale: 1, edits: edits(&[(u32::MAX, 119)]), ..track(2, |_| ()) },
        Track { scale: u32::MAX, ..whole(3) },
    ];
    let film = films.movie("movie-scale-2-32-less-one", Movie { scale: u32::MAX, ..movie(&all) });
    film.map(1, &[0, u32::MAX - 1, u32::MAX]).map(2, &[0, u32::MAX - 1, u32::MAX]).ends();
    film.says(&["map 1 4294967294: 0", "map 1 4294967295: 1", "map 2 4294967294: 119", "map 2 4294967295: refused 15"]);
    film.says(&["map 3 4294967294: 4294967294", "map 3 4294967295: refused 15"]);
}

/// "Entries follow one another from movie time 0."
fn lists(films: &mut Films) {
    let list = |id, entries: &[(u32, i32)]| track(id, |track| track.edits = edits(entries));
    let all = [
        list(1, &[(60, 24), (60, -1)]),
        list(2, &[(60, 60), (60, 0), (60, 60), (120, 0)]),
        list(3, &[(u32::MAX - 1, -1), (1, 7)]),
        Track { edits: edits(&[(5, -1)]), ..empty_track(4) },
        list(5, &[(1, 119)]),
    ];
    let film = films.tracks("edit-lists", &all);
    film.map(1, &[0, 59, 60, 119, 120]).map(2, &[0, 59, 60, 119, 120, 179, 180, 299, 300]);
    film.map(3, &[0, u32::MAX - 2, u32::MAX - 1, u32::MAX]).map(4, &[0, 4, 5]).map(5, &[0, 1]).ends();
    film.says(&["map 1 59: 83", "map 1 60: nothing", "map 1 119: nothing", "map 1 120: refused 15"]);
    film.says(&["map 2 59: 119", "map 2 60: 0", "map 2 120: 60", "map 2 180: 0", "map 2 299: 119"]);
    film.says(&["map 3 4294967293: nothing", "map 3 4294967294: 7", "map 3 4294967295: refused 15"]);
    film.says(&["map 4 4: nothing", "map 4 5: refused 15", "at 4 0: refused 15", "map 5 0: 119"]);

    let entries: Vec<(u32, i32)> = (0..256).map(|i| if i % 2 == 0 { (1, -1) } else { (2, i % 119) }).collect();
    let film = films.node(0, "256-edits", movie(&[track(1, |track| track.edits = edits(&entries))]).file_of(4200));
    film.map(1, &[0, 1, 2, 3, 4, 5, 191, 192, 193, 381, 382, 383, 384]);
    film.says(&["map 1 381: nothing", "map 1 382: 17", "map 1 383: 18", "map 1 384: refused 15"]);
}

/// Document 02, "Nothing skipped in an edited film": with a finer media scale a sample may be passed over.
fn passed_over(films: &mut Films) {
    let three = |id, scale| {
        track(id, |track| {
            (track.scale, track.duration, track.stts) = (scale, 3, vec![(3, 1)]);
            (track.stsc, track.stsz, track.stco) = (vec![(1, 3, 1)], Sizes::Common(5, 3), vec![2000]);
            track.edits = edits(&[(2, 0)]);
        })
    };
    let film = films.movie("sample-2-passed-over", Movie { scale: 1, ..movie(&[three(1, 2), three(2, 1)]) });
    for id in [1, 2] {
        film.map(id, &[0, 1, 2]).at(id, &[0, 1, 2, 3]).sample(id, &[1, 2, 3]).features(id, &[b"avvb"]);
    }
    film.says(&["map 1 0: 0", "map 1 1: 2", "map 1 2: refused 15", "at 1 0: 1 entry 1", "at 1 2: 3 entry 1"]);
    film.says(&["map 2 0: 0", "map 2 1: 1", "map 2 2: refused 15", "at 2 0: 1 entry 1", "at 2 1: 2 entry 1"]);
    // The entry covers the sample that it passes over: 15 bytes over 3 units, and 10 over 2.
    film.says(&["feature 1 avvb: 80 = 0x00000050", "feature 2 avvb: 40 = 0x00000028"]);
}

pub fn films(films: &mut Films) {
    scales(films);
    lists(films);
    passed_over(films);
}
