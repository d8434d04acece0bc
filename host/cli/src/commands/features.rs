//! Features, and which second of a track has the highest bit rate.
use super::ranges::time_fields;
use super::{of_each, Answer};
use crate::failure::Failure;
use crate::json::Object;
use crate::table::{self, number, text};
use crate::time::clock;
use chaldoref::{Feature, FourCC, Movie, Peak, Refusal, Track, TrackId};
use std::io::{self, Write};

/// A feature of a track, by its code.
struct Found {
    code: FourCC,
    value: Result<u32, Refusal>,
    /// Where it is refused: why, in words.
    reason: Option<String>,
    peak: Option<Peak>,
}

/// All six features of a track, or of each, or the one of a code; that one of them cannot be computed is an answer here.
pub fn features(movie: &Movie, track: Option<TrackId>, code: Option<FourCC>, to: Answer) -> Result<(), Failure> {
    let codes = Feature::ALL.iter().map(|feature| feature.code()).filter(|own| code.is_none_or(|code| code == *own));
    let codes: Vec<FourCC> = codes.collect();
    let all = of_each(movie, track, |track| {
        let found = codes.iter().map(|code| found(movie, track, *code)).collect::<Vec<Found>>();
        Ok((track, found))
    })?;
    match (track, &all[..]) {
        (Some(_), [(track, found)]) => print(track, found, to),
        _ if to.json => {
            to.document(|o| o.list("tracks", &all, |o, (track, found)| track_fields(o, track, found)).map(drop))
        }
        (_, []) => Ok(writeln!(to.out, "the film has no tracks")?),
        _ => all.iter().try_for_each(|(track, found)| {
            writeln!(to.out, "track {}:", track.id)?;
            Ok(print_table(track, found, to.out)?)
        }),
    }
}

/// The feature of one code; then a refusal is the command's.
pub fn feature(movie: &Movie, track: TrackId, code: FourCC, to: Answer) -> Result<(), Failure> {
    let track = movie.track(track).ok_or(Refusal::NoTrack)?;
    let found = found(movie, track, code);
    match found.value {
        Err(refusal @ Refusal::NotComputed) => Err(Failure::Refused(refusal, why_not(track, code))),
        Err(refusal) => Err(refusal.into()),
        Ok(_) => print(track, &[found], to),
    }
}

/// Why a feature cannot be computed, where its code or the track's subtype says it.
fn why_not(track: &Track, code: FourCC) -> Option<String> {
    if Feature::from_code(code).is_none() {
        let codes: Vec<String> = Feature::ALL.iter().map(|feature| feature.code().to_string()).collect();
        return Some(format!("there is no feature {code}; there are {}", codes.join(", ")));
    }
    only_for(track, code).map(|words| format!("{code} is {words}"))
}

fn found(movie: &Movie, track: &Track, code: FourCC) -> Found {
    let value = movie.feature(track.id, code);
    let words = |refusal: Refusal| only_for(track, code).map_or_else(|| refusal.to_string(), String::from);
    // Any other feature than the highest bit rates is refused.
    Found { code, value, reason: value.err().map(words), peak: movie.peak(track.id, code).ok() }
}

/// Which tracks have the feature, where this one has not because of its subtype.
fn only_for(track: &Track, code: FourCC) -> Option<&'static str> {
    let wanted = Feature::from_code(code)?.subtype();
    match &wanted.to_bytes() {
        _ if wanted == track.subtype => None,
        b"soun" => Some("only for sound tracks"),
        _ => Some("only for video tracks"),
    }
}

fn print(track: &Track, all: &[Found], to: Answer) -> Result<(), Failure> {
    if to.json {
        return to.document(|o| track_fields(o, track, all));
    }
    Ok(print_table(track, all, to.out)?)
}

fn track_fields(o: &mut Object, track: &Track, all: &[Found]) -> io::Result<()> {
    o.put("track", track.id.0)?.list("features", all, |o, found| fields(o, found, track)).map(drop)
}

fn print_table(track: &Track, all: &[Found], out: &mut dyn Write) -> io::Result<()> {
    let columns = [text("code"), text("name"), number("value"), text("meaning")];
    let row = |found: &Found| {
        let [value, meaning] = match found.value {
            Ok(value) => [value.to_string(), meaning(track, found.code, value)],
            Err(refusal) => [format!("refused {}", refusal.number()), found.reason.clone().unwrap_or_default()],
        };
        [found.code.to_string(), name(found.code), value, meaning]
    };
    table::write(out, columns, all, row)?;
    for found in all {
        if let Some(peak) = &found.peak {
            writeln!(out, "peak of {}: {}", found.code, peak_in_words(track, peak))?;
        }
    }
    Ok(())
}

/// Where the peak second begins and ends.
pub(super) fn peak_in_words(track: &Track, peak: &Peak) -> String {
    let (first, last) = (peak.samples.start(), peak.samples.end());
    let (a, b) = (peak.time.start, peak.time.end);
    let [begin, end] = [a, b].map(|time| clock(time, track.scale));
    // Less than a second of media time.
    let whole = if track.total.0 < track.scale { ", the whole track" } else { "" };
    format!("samples {first} to {last}, media time {a} to {b} ({begin} to {end}){whole}")
}

fn fields(o: &mut Object, found: &Found, track: &Track) -> io::Result<()> {
    let refused = found.value.err().map(Refusal::number);
    let edits = found.value.ok().filter(|_| is_average(found.code)).map(|_| track.edits);
    o.put("code", found.code.to_string())?.put("name", name(found.code))?.put("value", found.value.ok())?;
    o.put("refused", refused)?.put("reason", found.reason.clone())?.put("edits", edits)?;
    o.object("peak", found.peak.as_ref(), |o, peak| {
        o.put("first", *peak.samples.start())?.put("last", *peak.samples.end())?;
        time_fields(o, &peak.time, track.scale)
    })?;
    Ok(())
}

fn name(code: FourCC) -> String {
    Feature::from_code(code).map_or_else(String::new, |feature| feature.to_string())
}

/// Whether a feature is taken over what a track's edits show, if it has any.
fn is_average(code: FourCC) -> bool {
    matches!(Feature::from_code(code), Some(Feature::AverageVideoBitRate | Feature::AverageAudioBitRate))
}

/// What a feature's number says, and over what an average was taken.
fn meaning(track: &Track, code: FourCC, value: u32) -> String {
    let over = match track.edits {
        0 => "the whole media".to_string(),
        1 => "1 edit".to_string(),
        n => format!("{n} edits"),
    };
    match Feature::from_code(code) {
        Some(_) if is_average(code) => format!("{value} bits a second over {over}"),
        Some(Feature::GreatestPicture) => format!("{} x {} pixels", value >> 16, value & 0xffff),
        Some(Feature::HighestFrameRate) => format!("{:.3} frames a second", f64::from(value) / 65536.0),
        Some(_) => format!("{value} bits a second"),
        None => String::new(),
    }
}
