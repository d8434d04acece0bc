//! Samples of no bytes, and samples that all have the same: a chunk touched has its pair, though it be of length 0.
use super::base::*;
use reference::film::*;

fn none(films: &mut Films) {
    let film = films.one("samples-of-no-bytes-at-the-edges-and-inside", |track| {
        lasting(track, &[(8, 15)]);
        (track.stsc, track.stco) = (vec![(1, 4, 1)], vec![1000, 1100]);
        track.stsz = Sizes::Each(vec![0, 10, 0, 20, 0, 0, 30, 0]);
    });
    film.cut(1, &[(0, 120), (15, 105), (30, 90)]).tight(1, &[(30, 90)]);
    film.grid(1, &[0, 15, 30, 45, 60, 75, 90, 105, 120]).ends();
    film.says(&[
        "stretch 1 0 15 room 2: 1 pairs, 0 bytes: 1000+0, rest untouched",
        "stretch 1 30 90 room 4: 2 pairs, 20 bytes: 1010+20 1100+0, rest untouched",
        "stretch 1 105 120 room 2: 1 pairs, 0 bytes: 1130+0, rest untouched",
    ]);

    // At the beginning of the file, inside it, at its end and twice at the same place.
    let film = films.one("chunks-of-no-bytes", |track| {
        lasting(track, &[(7, 10)]);
        a_chunk_each(track, &[(0, 0), (1000, 5), (1000, 0), (1005, 7), (1280, 0), (900, 0), (900, 0)]);
    });
    film.cut(1, &[(0, 70), (10, 40), (20, 30)]).tight(1, &[(0, 70), (20, 30)]).ends();
    film.says(&[
        "stretch 1 20 30 room 2: 1 pairs, 0 bytes: 1000+0, rest untouched",
        "stretch 1 0 70 room 14: 7 pairs, 12 bytes: 0+0 1000+5 1000+0 1005+7 1280+0 900+0 x2, rest untouched",
        "slip 1 20 30 room 10: 10 bytes 0101d804141e01e80700, rest untouched, reads back",
    ]);

    let film = films.one("no-bytes-at-all", |track| track.stsz = Sizes::Each(vec![0; 4]));
    film.cut(1, &[(0, 120), (24, 73)]).ends();
    film.says(&["stretch 1 24 73 room 4: 2 pairs, 0 bytes: 1000+0 900+0, rest untouched"]);
}

fn common(films: &mut Films) {
    let film = films.one("common-size", |track| {
        lasting(track, &[(6, 20)]);
        (track.stsc, track.stsz) = (vec![(1, 4, 1), (2, 2, 1)], Sizes::Common(37, 6));
    });
    film.cut(1, &[(0, 120), (20, 100)]).tight(1, &[(20, 100)]).grid(1, &[0, 20, 40, 60, 80, 100, 120]).ends();
    film.says(&["stretch 1 20 100 room 4: 2 pairs, 148 bytes: 1037+111 900+37, rest untouched"]);
}

pub fn films(films: &mut Films) {
    none(films);
    common(films);
}
