//! "Features, decided by four-character code".
use super::peaks::{peak, Peak};
use super::refusals::in_media_scale;
use super::tables::{code, Edit, Sample, Track};

fn least_duration(track: &Track) -> Option<u64> {
    track.samples.iter().map(|sample| sample.duration).filter(|duration| *duration != 0).min()
}

/// "a divisor that is 0 or absent, a numerator of 2^64 or more, or a result over 4,294,967,295"; "Quotients are rounded up."
pub fn quotient(numerator: u128, divisor: Option<u64>) -> Option<u32> {
    let divisor = u128::from(divisor?);
    if divisor == 0 || numerator >= 1 << 64 {
        return None;
    }
    let mut result = numerator / divisor;
    if result * divisor < numerator {
        result += 1;
    }
    u32::try_from(result).ok()
}

/// The place in the track of the sample at a media time: "decode time ≤ t < decode time plus duration"
fn place_at(track: &Track, t: u128) -> usize {
    let holds = |sample: &Sample| {
        let start = u128::from(sample.decode_time);
        start <= t && t < start + u128::from(sample.duration)
    };
    track.samples.iter().position(holds).unwrap()
}

/// Document 02: "each entry that shows media covers the samples from the one at its first place to the one at its last place (movie time d-1 in the
/// entry)"
fn covered<'a>(track: &'a Track, edit: &Edit, movie_scale: u64) -> &'a [Sample] {
    let Ok(first) = u128::try_from(edit.media_time) else {
        return &[];
    };
    let last = first + in_media_scale(edit.duration - 1, track.tables.scale, movie_scale);
    &track.samples[place_at(track, first)..=place_at(track, last)]
}

/// "8 × all sizes × scale / total". Document 02: "With an edit list ... Sizes and durations of those samples are added, once for each entry that covers
/// them. Without a list nothing changes."
fn average(track: &Track, movie_scale: u64) -> Option<u32> {
    let parts: Vec<&[Sample]> = match &track.tables.edits {
        Some(edits) => edits.iter().map(|edit| covered(track, edit, movie_scale)).collect(),
        None => vec![&track.samples],
    };
    let all = || parts.iter().flat_map(|part| part.iter());
    let sizes: u128 = all().map(|sample| u128::from(sample.size)).sum();
    quotient(8 * sizes * u128::from(track.tables.scale), Some(all().map(|sample| sample.duration).sum()))
}

/// "greatest width × 65536 + greatest height"; "no description for tvsz"
fn picture_size(track: &Track) -> Option<u32> {
    let width = track.tables.pictures.iter().map(|picture| picture.width).max()?;
    let height = track.tables.pictures.iter().map(|picture| picture.height).max()?;
    u32::try_from(width * 65536 + height).ok()
}

/// "65536 × scale / least non-zero duration"
fn frame_rate(track: &Track) -> Option<u32> {
    quotient(65536 * u128::from(track.tables.scale), least_duration(track))
}

pub fn is_video(track: &Track) -> bool {
    track.tables.subtype == code(b"vide")
}

pub fn is_sound(track: &Track) -> bool {
    track.tables.subtype == code(b"soun")
}

/// The run that gives the feature of that code its value: "'mvbr' (vide) and 'mabr' (soun)". Nothing for another code, and where it is refused 18.
pub fn peak_of(track: &Track, feature: u32) -> Option<Peak> {
    match &feature.to_be_bytes() {
        b"mvbr" if is_video(track) => peak(track),
        b"mabr" if is_sound(track) => peak(track),
        _ => None,
    }
}

/// The feature of that code, or nothing where it is refused 18. "another code, the wrong subtype"
pub fn computed(track: &Track, movie_scale: u64, feature: u32) -> Option<u32> {
    match &feature.to_be_bytes() {
        b"avvb" if is_video(track) => average(track, movie_scale),
        b"avab" if is_sound(track) => average(track, movie_scale),
        b"tvsz" if is_video(track) => picture_size(track),
        b"vfps" if is_video(track) => frame_rate(track),
        b"mvbr" | b"mabr" => peak_of(track, feature).map(|peak| peak.rate),
        _ => None,
    }
}
