//! What an answer does not say of a film. A warning changes neither the answer nor the exit status.
use crate::film::Fragments;
use chaldoref::{LeaveOut, MediaTime, Movie, Track, TrackId};
use std::io::{self, Write};
use std::ops::Range;

/// Of a film whose tracks are listed.
pub fn of_tracks(movie: &Movie, fragments: Option<Fragments>) -> Vec<String> {
    let mut warnings = of_fragments(fragments);
    warnings.extend(disagreements(movie).map(|words| format!("{words}: no slip can be written of this film")));
    warnings
}

/// Of a film that is read in part.
pub fn of_fragments(fragments: Option<Fragments>) -> Vec<String> {
    fragments.map(Fragments::in_words).into_iter().collect()
}

/// The tracks whose stored duration is not the total of their samples' durations, in words.
pub fn disagreements<'m>(movie: &'m Movie) -> impl Iterator<Item = String> + 'm {
    let words =
        |t: &Track| format!("track {} stores the duration {}, and its samples total {}", t.id, t.stored, t.total);
    movie.tracks().iter().filter(|track| track.has_other_duration()).map(words)
}

/// Of a stretch of a track.
pub fn of_stretch(movie: &Movie, track: TrackId, time: &Range<MediaTime>) -> Vec<String> {
    let mut warnings = of_ctts(movie, track, "a stretch is of decode time");
    warnings.extend(tiny(movie, track, time));
    warnings
}

/// Of a track whose samples are shown at other times than they are decoded at.
pub fn of_ctts(movie: &Movie, track: TrackId, what: &str) -> Vec<String> {
    if !movie.opened(track).is_ok_and(|track| track.has_ctts()) {
        return Vec::new();
    }
    vec![format!("track {track} has a ctts: {what}, and what is shown in that time may differ")]
}

/// Of a stretch that is shorter than its first sample: whoever wrote 1 2 may have meant seconds.
fn tiny(movie: &Movie, track: TrackId, time: &Range<MediaTime>) -> Option<String> {
    let length = time.end.0 - time.start.0;
    let sample = movie.sample(track, movie.sample_at(track, time.start).ok()?.sample).ok()?;
    let scale = movie.track(track)?.scale;
    (length < sample.duration).then(|| {
        let s = if length == 1 { "" } else { "s" };
        format!(
            "this is {length} unit{s}, {length}/{scale} of a second, and one sample lasts {}; seconds are written as 1s 2s",
            sample.duration
        )
    })
}

/// The parts of a film that are left out, in words, if there are any.
pub fn left_out(parts: &[LeaveOut]) -> Option<String> {
    let words = |part: &LeaveOut| match part {
        LeaveOut::Track(id) => format!("track {id}"),
        _ => "the edit lists".into(),
    };
    let all: Vec<String> = parts.iter().map(words).collect();
    (!all.is_empty()).then(|| all.join(" and "))
}

/// Tells them on standard error.
pub fn tell(warnings: &[String]) {
    warnings.iter().for_each(|words| say(&format!("warning: {words}")));
}

/// Says something on standard error.
pub fn say(words: &str) {
    // Where standard error cannot be written, nothing is left to tell it on.
    let _ = io::stderr().write_all(format!("chaldoref: {words}\n").as_bytes());
}
