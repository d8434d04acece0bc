//! Film W, and what document 01 says of its stretches.
use super::base::*;
use reference::film::*;

/// "the W case with 121 holds there and is accepted elsewhere": 11 is the slip writer's alone, and comes before 14, 15 and 16, and before 12.
fn stored(films: &mut Films) {
    let other = |change: fn(&mut Track)| {
        let mut track = w_with(|track| track.duration = 121);
        change(&mut track);
        movie(&[track]).file_of(4096)
    };
    let film = films.node(0, "w-mdhd-121", other(|_| ()));
    film.each(1).ends().strangers().stretch(1, (24, 73), &[4, 3]).slip(1, (24, 73), &[13, 12, 0]).says(&[
        "stretch 1 24 73 room 4: 2 pairs, 120 bytes: 1100+50 900+70, rest untouched",
        "stretch 1 0 120 room 4: 2 pairs, 220 bytes: 1000+150 900+70, rest untouched",
        "stretch 1 0 121 room 4: refused 15, untouched",
        "slip 1 24 73 room 13: refused 11, untouched",
        "slip 1 24 73 room 0: refused 11, untouched",
        "slip 1 0 0 room 0: refused 11, untouched",
        "slip 999 24 73 room 16: refused 11, untouched",
    ]);
    let film = films.node(12, "w-mdhd-121-and-second-chunk-past-the-end", other(|track| track.stco[1] = 4027));
    film.each(1).each(2).says(&[
        "stretch 1 24 73 room 4: refused 12, untouched",
        "slip 1 24 73 room 16: refused 11, untouched",
        "slip 2 0 0 room 0: refused 11, untouched",
    ]);
}

pub fn films(films: &mut Films) {
    let film = films.node(0, "w", w());
    film.tight(1, &[(24, 73), (0, 120), (48, 49)]).stretch(1, (24, 24), &[4, 0]).slip(1, (24, 24), &[13, 0]);
    film.cut(1, &[(0, 120), (24, 73), (1, 119), (23, 25), (47, 73), (71, 73)]);
    film.grid(1, &[0, 1, 23, 24, 25, 47, 48, 49, 71, 72, 73, 119, 120]).ends().strangers();
    film.says(&[
        "stretch 1 24 73 room 4: 2 pairs, 120 bytes: 1100+50 900+70, rest untouched",
        "stretch 1 0 120 room 4: 2 pairs, 220 bytes: 1000+150 900+70, rest untouched",
        "stretch 1 24 24 room 4: refused 15, untouched",
        "stretch 1 24 73 room 3: refused 16, untouched",
        "stretch 1 24 73 room 5: 2 pairs, 120 bytes: 1100+50 900+70, rest untouched",
        "stretch 1 48 49 room 2: 1 pairs, 0 bytes: 1150+0, rest untouched",
        "slip 1 24 73 room 13: 13 bytes 0101d804184902cc0832840746, rest untouched, reads back",
        "slip 1 24 73 room 12: refused 16, untouched",
    ]);
    film.says(&["stretch 999 24 73 room 4: refused 14, untouched", "slip 0 0 0 room 0: refused 14, untouched"]);
    film.says(&[
        "stretch 1 0 121 room 4: refused 15, untouched",
        "stretch 1 0 4294967295 room 4: refused 15, untouched",
    ]);
    stored(films);
}
