//! Refused films: each question gives the file's number, whatever is asked, and the rooms stay as they were.
use super::base::*;
use reference::film::*;

/// A film in a file with nothing but the moov.
fn bare(track: Track) -> Node {
    movie(&[track]).file()
}

pub fn films(films: &mut Films) {
    // W's bytes lie in such a file only with their chunks at its beginning.
    let track = w_with(|track| track.stco = vec![0, 8]);
    for (number, name, film) in spoiled(&track, bare) {
        films.node(number, name, film).each(1).each(0).each(2).says(&[
            &format!("stretch 1 24 73 room 4: refused {number}, untouched"),
            &format!("stretch 0 0 0 room 0: refused {number}, untouched"),
            &format!("slip 1 24 73 room 16: refused {number}, untouched"),
            &format!("slip 2 4294967295 0 room 0: refused {number}, untouched"),
        ]);
    }
    // The same film with nothing spoiled.
    films.node(0, "none-of-the-faults", bare(track)).each(1).each(0).each(2);
}
