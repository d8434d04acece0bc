//! Slips whose numbers are at the widths of their groups, and slips as long as the longest room.
use super::base::*;
use reference::film::*;

/// The last number of one byte and the first of two, and the same of two and three bytes.
const WIDTHS: [u32; 4] = [127, 128, 16_383, 16_384];

/// Offsets and lengths.
fn pairs(films: &mut Films) {
    let track = w_with(|track| {
        lasting(track, &[(8, 15)]);
        let offsets = WIDTHS.map(|offset| (offset, 1));
        let lengths = WIDTHS.map(|length| (0, length));
        a_chunk_each(track, &[offsets, lengths].concat());
    });
    let film = films.node(0, "offsets-and-lengths-at-the-widths-of-groups", movie(&[track]).file_of(16_400));
    film.cut(1, &[(0, 120), (15, 45), (75, 105)]).tight(1, &[(0, 120)]).ends();
    film.says(&["slip 1 30 45 room 10: 10 bytes 0101d8041e2d01ff7f01, rest untouched, reads back"]);
}

/// Media times, which are as free as 32 bits allow in one long sample.
fn times(films: &mut Films) {
    let film = films.one("media-times-at-the-widths-of-groups", |track| {
        (track.duration, track.stts) = (u32::MAX, vec![(1, u32::MAX)]);
        a_chunk_each(track, &[(1000, 9)]);
    });
    for power in [7, 14, 21, 28] {
        let first: u32 = 1 << power;
        film.exact(1, &[(first - 2, first - 1), (first - 1, first), (first, first + 1), (0, first)]);
    }
    film.tight(1, &[(u32::MAX - 1, u32::MAX)]).ends();
    film.says(&["slip 1 127 128 room 11: 11 bytes 0101d8047f800101e80709, rest untouched, reads back"]);
}

/// Track IDs and scales.
fn heads(films: &mut Films) {
    let ids = [127, 128, 16_383, 16_384, (1 << 21) - 1, 1 << 21, (1 << 28) - 1, 1 << 28, u32::MAX];
    let all: Vec<Track> = ids.iter().map(|id| track(*id, |track| track.scale = u32::MAX - id + 1)).collect();
    let movie = movie(&all).file_of(6000);
    let film = films.node(0, "ids-and-scales-at-the-widths-of-groups", movie);
    for id in ids {
        film.cut(id, &[(24, 73)]);
    }
    film.tight(u32::MAX, &[(0, 120)]).each(126).each(u32::MAX - 1);
}

/// Pairs of four bytes: with 253 of them a slip fits in 1,024 bytes, and with 254 it does not.
fn long(films: &mut Films) {
    let track = w_with(|track| {
        lasting(track, &[(300, 1)]);
        let chunks: Vec<(u32, u32)> = (0..300).map(|i| (3000 + i * 7 % 300, 128 + i % 5)).collect();
        a_chunk_each(track, &chunks);
    });
    let film = films.node(0, "300-chunks", movie(&[track]).file_of(4096));
    film.exact(1, &[(0, 128), (0, 129), (1, 129), (128, 256)]).slip(1, (0, 253), &[1020, 1021, 1024]);
    film.slip(1, (0, 254), &[1024]).slip(1, (0, 300), &[1024]).stretch(1, (0, 254), &[508, 507]);
    film.stretch(1, (0, 300), &[600, 599, 601, 256]).stretch(1, (0, 128), &[255]).stretch(1, (0, 129), &[256]);
    film.says(&["slip 1 0 254 room 1024: refused 16, untouched", "slip 1 0 253 room 1020: refused 16, untouched"]);
}

pub fn films(films: &mut Films) {
    pairs(films);
    times(films);
    heads(films);
    long(films);
}
