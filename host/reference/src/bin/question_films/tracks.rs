//! Films of several tracks: "Tracks merged by subtype or name" is shut out.
use super::base::*;
use reference::film::*;
use reference::hoses::two_hoses;

/// Two tracks that differ in all that is asked, the second with the lower ID.
fn apart(films: &mut Films) {
    let video = track(7, |track| {
        track.descriptions = vec![picture(64, 48), picture(48, 64)];
        (track.stsc, track.stco) = (vec![(1, 1, 2), (2, 2, 1), (3, 1, 2)], vec![2600, 2000, 2700]);
        (track.ctts, track.stss) = (Some(vec![(2, 24), (2, -24)]), Some(vec![1]));
        (track.edits, track.profile) = (edits(&[(60, 24), (30, -1)]), Some(vec![[0, 1, 2, 3]]));
    });
    let sound = track(3, |track| {
        (track.subtype, track.descriptions) = (*b"soun", vec![description(b"twos", 16)]);
        (track.scale, track.duration, track.stts) = (8000, 1600, vec![(2, 400), (1, 800)]);
        (track.stsc, track.stsz, track.stco) = (vec![(1, 3, 1)], Sizes::Common(25, 3), vec![2900]);
    });
    let film =
        films.movie("two-tracks-that-differ", Movie { profile: Some(vec![[0, 9, 8, 7]]), ..movie(&[video, sound]) });
    film.sample(7, &[1, 2, 3, 4, 5]).sample(3, &[1, 2, 3, 4]).at(7, &[24, 72]).at(3, &[24, 72, 400, 800, 1599]);
    film.map(7, &[0, 59, 60, 89, 90]).map(3, &[0, 29, 30, 59, 60, 119, 120]);
    film.profile(7, &[3, 2]).profile(3, &[3, 2]).profile(0, &[3, 2]).ends().strangers();
    film.says(&[
        "sample 7 3: 48 24 24 not sync 1 chunk 2 2050 0, bytes 0 sum 0",
        "sample 3 3: 800 800 800 sync 1 chunk 1 2950 25, bytes 25 sum 5025",
        "map 7 59: 83",
        "map 7 60: nothing",
        "map 3 59: 786",
        "map 3 119: 1586",
        "map 3 120: refused 15",
        "feature 7 tvsz: 4194368 = 0x00400040",
        "feature 3 avab: 3000 = 0x00000bb8",
        "profile 7 room 3: 1 records 1 2 3, rest untouched",
        "profile 3 room 3: 0 records, rest untouched",
    ]);
}

/// Tracks that are alike but for their IDs and for where their bytes lie.
fn alike(films: &mut Films) {
    let ids = [1, 1 << 8, 1 << 16, 1 << 24, u32::MAX];
    let all: Vec<Track> = (0..).zip(ids).map(|(i, id)| track(id, |track| track.stco[0] += 10 * i)).collect();
    let film = films.tracks("ids-that-differ-in-one-byte", &all);
    for id in ids {
        film.sample(id, &[1, 4]).at(id, &[24]).map(id, &[24]).features(id, &[b"avvb"]).profile(id, &[0]);
    }
    film.each(0).each((1 << 24) + 1).each(u32::MAX - 1);
    let film = films.node(0, "two-hoses", two_hoses());
    film.sample(1, &[1, 2, 3, 6]).sample(2, &[1, 2, 3, 6]).ends();
    // The sums of `hose 1 picture 6` and of `hose 2 picture 6`.
    film.says(&[
        "sample 1 6: 120 24 120 sync 1 chunk 3 1204 16, bytes 16 sum 1394",
        "sample 2 6: 120 24 120 sync 1 chunk 3 1236 16, bytes 16 sum 1395",
    ]);
}

/// No track at all: only the movie's profile is there to ask for.
fn none(films: &mut Films) {
    let film = films.node(0, "no-trak", Movie { profile: Some(vec![[0, 9, 8, 7]]), ..movie(&[]) }.file());
    film.strangers()
        .each(1)
        .says(&["profile 0 room 3: 1 records 9 8 7, rest untouched", "sample 1 1: refused 14, bytes 0 sum 0"]);
}

pub fn films(films: &mut Films) {
    apart(films);
    alike(films);
    none(films);
}
