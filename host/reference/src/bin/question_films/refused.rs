//! Refused films: each question gives the file's number, whatever is asked, and the rooms stay as they were.
use super::base::*;
use reference::film::*;

/// A film in a file with nothing but the moov.
fn bare(track: Track) -> Node {
    Movie { profile: Some(vec![[0, 4, 5, 6]]), ..movie(&[track]) }.file()
}

pub fn films(films: &mut Films) {
    // W's bytes lie in such a file only with their chunks at its beginning.
    let track = Track { profile: Some(vec![[0, 1, 2, 3]]), ..w_with(|track| track.stco = vec![0, 8]) };
    for (number, name, film) in spoiled(&track, bare) {
        films.node(number, name, film).each(1).each(0).each(2).says(&[
            &format!("sample 1 1: refused {number}, bytes 0 sum 0"),
            &format!("at 0 0: refused {number}"),
            &format!("map 2 4294967295: refused {number}"),
            &format!("feature 1 00000000: refused {number}"),
            &format!("peak 1 mvbr: refused {number}"),
            &format!("peak 2 avvb: refused {number}"),
            &format!("profile 0 room 3: refused {number}, untouched"),
            &format!("profile 1 room 0: refused {number}, untouched"),
        ]);
    }
    // The same film with nothing spoiled.
    films.node(0, "none-of-the-faults", bare(track)).each(1).each(0).each(2);
}
