//! Stored profiles, of the movie (ID 0) and of its track, with rooms as long as the answer, longer, one place short, and empty.
use super::base::*;
use reference::film::*;

/// Rooms for so many records, and the longest.
fn rooms(film: &mut Film, id: u32, records: u32) {
    let length = 3 * records;
    film.profile(id, &[length, length + 1, length + 3, length.saturating_sub(1), 0, 1, 64]);
}

/// A movie of one track, with a profile for each.
fn with(movie_profile: &[[u32; 4]], track_profile: &[[u32; 4]]) -> Movie {
    let track = w_with(|track| track.profile = Some(track_profile.to_vec()));
    Movie { profile: Some(movie_profile.to_vec()), ..movie(&[track]) }
}

/// "part-ID, code and value of each record kept, in order"; "Records with code 0 are passed over"
fn records(films: &mut Films) {
    let whole = [u32::MAX; 4];
    let of_movie = [[9, 1, 0, 3], [9, 4, 5, 6], whole, [7, 1, 0, 1]];
    let of_track = [[0, 7, 8, 9], [0, 0, 1, 0], [1, 2, 0, 4], [5, 6, 7, 8]];
    let film = films.movie("profiles-with-code-0-among-the-records", with(&of_movie, &of_track));
    rooms(film, 0, 2);
    rooms(film, 1, 3);
    film.strangers().says(&[
        "profile 0 room 6: 2 records 4 5 6 4294967295 4294967295 4294967295, rest untouched",
        "profile 0 room 5: refused 16, untouched",
        "profile 1 room 9: 3 records 7 8 9 0 1 0 6 7 8, rest untouched",
        "profile 1 room 12: 3 records 7 8 9 0 1 0 6 7 8, rest untouched",
        "profile 1 room 8: refused 16, untouched",
        "profile 999 room 0: refused 14, untouched",
    ]);

    let film = films.movie("profiles-of-code-0-alone-and-of-none", with(&[[1, 2, 0, 4]; 3], &[]));
    rooms(film, 0, 0);
    rooms(film, 1, 0);
    film.says(&["profile 0 room 0: 0 records, rest untouched", "profile 1 room 3: 0 records, rest untouched"]);

    // As many records as are allowed: the movie's are all kept, of the track's every third.
    let all: Vec<[u32; 4]> = (0..64).map(|i| [i, 1000 + i, 2000 + i, 7 * i]).collect();
    let third: Vec<[u32; 4]> = (0..64).map(|i| [i, 100 + i, if i % 3 == 1 { i } else { 0 }, 200 + i]).collect();
    let film = films.movie("profiles-of-64-records", with(&all, &third));
    film.profile(0, &[63, 64]).profile(1, &[63, 64, 62, 61, 60, 0]);
    film.says(&["profile 0 room 64: refused 16, untouched", "profile 1 room 62: refused 16, untouched"]);
}

/// "the first 'prfl' child before its mvhd (tkhd); any other is skipped. Version not 0: there is none."
fn which(films: &mut Films) {
    let other = |version: u8| {
        let mut node = prfl(&[[0, 1, 2, 3]]);
        node.body[0] = version;
        node
    };
    let mut film = w();
    film.insert_before("moov mvhd", atom("prfl", &[1]));
    film.insert_before("moov mvhd", prfl(&[[0, 4, 5, 6]]));
    film.insert_before("moov trak tkhd", other(255));
    film.insert_before("moov trak tkhd", prfl(&[[0, 4, 5, 6]]));
    let film = films.node(0, "profiles-of-another-version", film);
    film.profile(0, &[0, 3, 6]).profile(1, &[0, 3, 6]);
    film.says(&["profile 0 room 3: 0 records, rest untouched", "profile 1 room 0: 0 records, rest untouched"]);

    let mut film = w();
    film.insert_after("moov mvhd", prfl(&[[0, 4, 5, 6]]));
    film.insert_after("moov trak tkhd", other(1));
    film.push("moov trak", prfl(&[[0, 4, 5, 6]]));
    let film = films.node(0, "profiles-after-the-headers", film);
    film.profile(0, &[0, 3]).profile(1, &[0, 3]);
    film.says(&["profile 0 room 3: 0 records, rest untouched", "profile 1 room 3: 0 records, rest untouched"]);

    let mut film = w();
    for (path, part) in [("moov mvhd", 10), ("moov trak tkhd", 20)] {
        film.insert_before(path, atom("free", &[0; 4]));
        film.insert_before(path, prfl(&[[0, part, 5, 6]]));
        film.insert_before(path, atom("udta", &[]));
        film.insert_before(path, prfl(&[[0, 99, 5, 6], [0, 98, 5, 6]]));
    }
    let film = films.node(0, "profiles-after-other-atoms-and-before-a-second", film);
    film.profile(0, &[3, 6, 2]).profile(1, &[3, 6, 2]);
    film.says(&[
        "profile 0 room 3: 1 records 10 5 6, rest untouched",
        "profile 1 room 3: 1 records 20 5 6, rest untouched",
    ]);
}

pub fn films(films: &mut Films) {
    records(films);
    which(films);
}
