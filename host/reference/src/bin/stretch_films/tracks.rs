//! Films of several tracks: "Tracks merged by subtype or name" is shut out.
use super::base::*;
use reference::film::*;
use reference::hoses::two_hoses;

/// Two tracks that differ in all that is asked, the second with the lower ID. What a stretch does not go by is there too: composition times, sync
/// samples, edits and profiles.
fn apart(films: &mut Films) {
    let video = track(7, |track| {
        track.scale = 90_000;
        track.descriptions = vec![picture(64, 48), picture(48, 64)];
        (track.stsc, track.stco) = (vec![(1, 1, 2), (2, 2, 1), (3, 1, 2)], vec![2600, 2000, 2700]);
        (track.ctts, track.stss) = (Some(vec![(2, 24), (2, -24)]), Some(vec![1]));
        (track.edits, track.profile) = (edits(&[(1, -1)]), Some(vec![[0, 1, 2, 3]]));
    });
    let sound = track(3, |track| {
        (track.subtype, track.descriptions) = (*b"soun", vec![description(b"twos", 16)]);
        (track.scale, track.duration, track.stts) = (8000, 1600, vec![(2, 400), (1, 800)]);
        (track.stsc, track.stsz, track.stco) = (vec![(1, 3, 1)], Sizes::Common(25, 3), vec![2900]);
    });
    let film = films.tracks("two-tracks-that-differ", &[video, sound]);
    film.cut(7, &[(0, 120), (24, 73)]).cut(3, &[(0, 1600), (24, 73), (399, 401)]).ends().strangers();
    film.says(&[
        "stretch 7 24 73 room 4: 2 pairs, 120 bytes: 2000+50 2700+70, rest untouched",
        "stretch 3 24 73 room 2: 1 pairs, 25 bytes: 2900+25, rest untouched",
        "stretch 3 399 401 room 2: 1 pairs, 50 bytes: 2900+50, rest untouched",
        "slip 3 24 73 room 10: 10 bytes 0103c03e184901d41619, rest untouched, reads back",
    ]);
}

/// Tracks that are alike but for their IDs and for where their bytes lie.
fn alike(films: &mut Films) {
    let ids = [1, 1 << 8, 1 << 16, 1 << 24, u32::MAX];
    let all: Vec<Track> = (0..).zip(ids).map(|(i, id)| track(id, |track| track.stco[0] += 10 * i)).collect();
    let film = films.tracks("ids-that-differ-in-one-byte", &all);
    for id in ids {
        film.cut(id, &[(24, 73)]);
    }
    film.each(0).each((1 << 24) + 1).each(u32::MAX - 1);

    let film = films.node(0, "two-hoses", two_hoses());
    for id in [1, 2] {
        film.cut(id, &[(0, 144), (25, 100)]);
    }
    film.ends().says(&["stretch 2 0 144 room 6: 3 pairs, 96 bytes: 1092+32 1156+32 1220+32, rest untouched"]);
}

fn none(films: &mut Films) {
    let film = films.node(0, "no-trak", movie(&[]).file());
    film.strangers().each(1).says(&["stretch 1 24 73 room 4: refused 14, untouched"]);
}

pub fn films(films: &mut Films) {
    apart(films);
    alike(films);
    none(films);
}
