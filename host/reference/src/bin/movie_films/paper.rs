//! Film W, and what document 01 says of it after a change.
use super::base::*;
use reference::film::*;

/// W after a change to its track.
fn w_with(change: impl FnOnce(&mut Track)) -> Node {
    let mut track = w_track();
    change(&mut track);
    Movie { tracks: vec![track], ..w_movie() }.file_of(4096)
}

pub fn films(films: &mut Films) {
    films.node(0, "w", w());
    films.node(0, "w-mdhd-121", w_with(|track| track.duration = 121)).strictly_11();
    films.node(12, "w-second-chunk-at-4027", w_with(|track| track.stco[1] = 4027));
    films.node(0, "w-second-chunk-at-4026", w_with(|track| track.stco[1] = 4026));
    for (number, media) in [(13, 61), (0, 60), (0, 24)] {
        let film = w_with(|track| track.edits = edits(&[(60, -1), (60, media)]));
        films.node(number, &format!("w-edits-60-empty-and-60-from-{media}"), film);
    }
    films.bytes(3, "empty-file", vec![]);
}
