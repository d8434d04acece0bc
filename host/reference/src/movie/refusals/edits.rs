//! Refusal 13: the edit lists.
use crate::movie::fault::{in_tracks, Fault};
use crate::movie::tables::{Edit, Movie, Track};

/// "floor(x × media scale / movie scale)"
pub fn in_media_scale(x: u64, media_scale: u64, movie_scale: u64) -> u128 {
    u128::from(x) * u128::from(media_scale) / u128::from(movie_scale)
}

fn wrong_edit(edit: &Edit, track: &Track, movie_scale: u64) -> Option<String> {
    let Edit { duration, media_time, rate } = *edit;
    // "a duration 0; a rate other than 65536 (1.0); a media time below -1"
    if duration == 0 {
        return Some("has duration 0".to_string());
    }
    if rate != 65536 {
        return Some(format!("has rate {rate}, and must have 65536 (1.0)"));
    }
    if media_time < -1 {
        return Some(format!("has media time {media_time}, and must have at least -1"));
    }
    // "or an entry with media time m ≥ 0 and duration d where m + floor((d-1) × media scale / movie scale) is not below the sample total"
    let m = u128::try_from(media_time).ok()?;
    let reached = m + in_media_scale(duration - 1, track.tables.scale, movie_scale);
    let total = track.total;
    let at = format!("has media time {media_time} and duration {duration}");
    (reached >= u128::from(total)).then(|| format!("{at} and reaches media time {reached}, the samples end at {total}"))
}

fn wrong_edits(edits: &[Edit], track: &Track, movie_scale: u64) -> Option<Fault> {
    // "no entry"
    if edits.is_empty() {
        return Some(Fault::of(b"elst", "has 0 entries, and must have at least 1".to_string()));
    }
    let entry = |(i, edit)| Some(format!("entry {} {}", i + 1, wrong_edit(edit, track, movie_scale)?));
    edits.iter().enumerate().find_map(entry).map(|words| Fault::of(b"elst", words))
}

/// "an edit list is wrong (below)"
pub fn refused_13(movie: &Movie) -> Option<Fault> {
    in_tracks(&movie.tracks, |track| wrong_edits(track.tables.edits.as_ref()?, track, movie.scale))
}
