//! Document 02, "The quay film profile": its rules, a function each, and the lowest that a film breaks.
use super::features::{computed, is_video};
use super::lent::Film;
use super::questions::answered;
use super::refusals::read;
use super::tables::{Movie, Track};

/// 30.0 frames, as vfps counts them.
const MOST_FRAMES: u32 = 30 * 65536;

/// "a sync sample and those after it before the next sync one, or to the end, at most 250 samples"
const MOST_OF_A_GROUP: usize = 250;

/// "one or two vide tracks and no others"
fn breaks_1(movie: &Movie) -> bool {
    let tracks = &movie.tracks;
    !(tracks.len() == 1 || tracks.len() == 2) || !tracks.iter().all(is_video)
}

/// "at most one edit entry a track"
fn breaks_2(track: &Track) -> bool {
    track.tables.edits.as_ref().is_some_and(|edits| edits.len() > 1)
}

/// "one description a track"
fn breaks_3(track: &Track) -> bool {
    track.tables.descriptions != 1
}

/// "no ctts": an empty one is one
fn breaks_4(track: &Track) -> bool {
    track.tables.ctts.is_some()
}

/// How many samples there are from each sync sample up to the next one, or to the end.
fn groups(track: &Track) -> Vec<usize> {
    let samples = &track.samples;
    let mut starts: Vec<usize> = (0..samples.len()).filter(|i| samples[*i].is_sync).collect();
    starts.push(samples.len());
    starts.windows(2).map(|pair| pair[1] - pair[0]).collect()
}

/// "sample 1 sync, and a sync sample and those after it before the next sync one, or to the end, at most 250 samples"; "A track with no samples breaks
/// the fifth."
fn breaks_5(track: &Track) -> bool {
    let starts_sync = track.samples.first().is_some_and(|sample| sample.is_sync);
    !starts_sync || groups(track).into_iter().any(|samples| samples > MOST_OF_A_GROUP)
}

/// "no zero sizes"
fn breaks_6(track: &Track) -> bool {
    track.samples.iter().any(|sample| sample.size == 0)
}

/// "no zero durations"
fn breaks_7(track: &Track) -> bool {
    track.samples.iter().any(|sample| sample.duration == 0)
}

/// Where each chunk begins and ends in the file.
fn extents(track: &Track) -> Vec<(u64, u64)> {
    let mut extents: Vec<(u64, u64)> = track.chunks.iter().map(|chunk| (chunk.offset, chunk.offset)).collect();
    for sample in &track.samples {
        extents[usize::try_from(sample.chunk - 1).unwrap()].1 += sample.size;
    }
    extents
}

/// "chunks in rising order of offset with none overlapping the one before"
fn breaks_8(track: &Track) -> bool {
    extents(track).windows(2).any(|pair| {
        let ((before, end), (next, _)) = (pair[0], pair[1]);
        next <= before || next < end
    })
}

/// "vfps at most 30.0"; "A vfps refused 18 breaks the last rule."
fn breaks_9(track: &Track, movie_scale: u64) -> bool {
    computed(track, movie_scale, u32::from_be_bytes(*b"vfps")).is_none_or(|frames| frames > MOST_FRAMES)
}

/// Whether a track breaks one of the rules after the first.
fn breaks(track: &Track, movie_scale: u64, rule: u64) -> bool {
    match rule {
        2 => breaks_2(track),
        3 => breaks_3(track),
        4 => breaks_4(track),
        5 => breaks_5(track),
        6 => breaks_6(track),
        7 => breaks_7(track),
        8 => breaks_8(track),
        _ => breaks_9(track, movie_scale),
    }
}

impl Movie {
    /// "The answer is a yes, or the lowest rule that any track breaks with the ID of the first track in file order that breaks it (0 for the first
    /// rule)": nothing is the yes.
    pub fn quay_fault(&self) -> Option<(u64, u64)> {
        if breaks_1(self) {
            return Some((1, 0));
        }
        (2..=9).find_map(|rule| {
            let first = self.tracks.iter().find(|track| breaks(track, self.scale, rule))?;
            Some((rule, first.tables.id))
        })
    }
}

/// The rule and the track's ID, both 0 for the yes. "Refusals: those of the file."
pub fn quay_fault(film: &(impl Film + ?Sized)) -> (u32, (u64, u64)) {
    answered(read(film).map(|movie| movie.quay_fault().unwrap_or((0, 0))))
}
