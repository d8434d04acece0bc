//! What this film has that it is refused for, what that means, and what can be done. No one has proved these words, and no answer follows from them; a way
//! to read the film all the same is named only where the proved library accepts the film so.
use crate::atoms::{self, Trak};
use crate::time::{brief, clock_of};
use chaldoref::{LeaveOut, Moov, Movie, Refusal, TrackId};

/// The most samples that a track may have.
const MOST_SAMPLES: u32 = 1_048_576;

/// The rate of an edit that is shown at its own speed.
const PLAIN_RATE: u32 = 65536;

/// The most tracks that a way is sought for.
const MOST_TRACKS: usize = 16;

/// A refusal in words for whoever has the film.
struct Advice {
    what: String,
    /// Whether the film is as its writer meant it.
    undamaged: bool,
    /// Which films to ask the camera's maker for.
    ask: &'static str,
}

impl Advice {
    fn undamaged(what: String, ask: &'static str) -> Advice {
        Advice { what, undamaged: true, ask }
    }
}

/// The hint for a film whose moov is there.
pub fn of_moov(moov: &Moov, refusal: Refusal) -> Option<String> {
    // The slip writer alone refuses 11, and its refusals are not tried here.
    if refusal == Refusal::StoredDuration {
        return None;
    }
    let way =
        way(moov).map(|parts| parts.iter().map(|part| format!("--leave-out {part}")).collect::<Vec<_>>().join(" "));
    match advice(moov, refusal) {
        Some(Advice { what, undamaged: true, ask }) => {
            let way = way.map_or("; it stays refused here: ask".into(), |way| format!("; read it with {way}, or ask"));
            Some(format!("{what}. The film is not damaged. Keep it as it is{way} the camera's maker for films {ask}."))
        }
        Some(Advice { what, .. }) => {
            Some(what + &way.map_or(".".into(), |way| format!("; with {way} the rest is read.")))
        }
        None => way.map(|way| format!("with {way} the rest of the film is read. Keep the film as it is.")),
    }
}

/// The hint for a file without a moov.
pub fn without_moov() -> String {
    "there are no tables (moov) in this file: it is no movie, or its recording or copying was broken off; copy it again"
        .into()
}

/// The hint for a file whose last atom is so many bytes longer than the file. Where the tables stand after it, more is missing.
pub fn cut_off(missing: u64, has_moov: bool) -> String {
    let (least, tables) = if has_moov { ("", "") } else { ("at least ", ", and the tables with them") };
    let s = if missing == 1 { "byte is" } else { "bytes are" };
    format!("the file is cut off: {least}{} {s} missing{tables}; copy it again", grouped(missing))
}

/// The fewest parts without which the library accepts the film. A video track is among them only beside another.
fn way(moov: &Moov) -> Option<Vec<LeaveOut>> {
    let part = |trak: &Trak| trak.id().map(|id| LeaveOut::Track(TrackId(id)));
    let traks: Vec<Trak> = atoms::traks(&moov.bytes).take(MOST_TRACKS).collect();
    let (videos, others): (Vec<&Trak>, Vec<&Trak>) = traks.iter().partition(|trak| trak.subtype() == *b"vide");
    let others: Vec<LeaveOut> = others.into_iter().filter_map(part).collect();
    let mut tries = vec![vec![LeaveOut::Edits]];
    tries.extend(others.iter().map(|track| vec![*track]));
    tries.push(others);
    tries.extend(tries.clone().into_iter().skip(1).map(|tracks| [tracks, vec![LeaveOut::Edits]].concat()));
    if videos.len() > 1 {
        tries.extend(videos.into_iter().filter_map(part).map(|track| vec![track]));
    }
    tries.into_iter().find(|parts| is_read_without(moov, parts))
}

fn is_read_without(moov: &Moov, parts: &[LeaveOut]) -> bool {
    let copy = moov.leaving_out(parts).ok().filter(|copy| copy != moov);
    copy.is_some_and(|copy| Movie::open(&copy).is_ok_and(|movie| !movie.tracks().is_empty()))
}

fn advice(moov: &Moov, refusal: Refusal) -> Option<Advice> {
    match refusal {
        Refusal::LeafVersion => other_version(&moov.bytes),
        Refusal::OverLimit => atoms::traks(&moov.bytes).find_map(too_many_samples),
        Refusal::EditList => atoms::traks(&moov.bytes).find_map(|trak| wrong_edits(&moov.bytes, trak)),
        Refusal::AtomCount => atoms::moov_child(&moov.bytes, b"cmov").map(|_| {
            Advice::undamaged("the tables of this film are compressed (cmov)".into(), "whose tables are not compressed")
        }),
        Refusal::DataElsewhere => {
            Some(Advice::undamaged("some of this film's data are in another file".into(), "that hold all their data"))
        }
        Refusal::PastEnd => Some(Advice {
            what: "the tables name bytes past the end of the file: it is cut off, or another file than it was; copy it again"
                .into(),
            undamaged: false,
            ask: "",
        }),
        _ => None,
    }
}

/// The first atom of another version than 0.
fn other_version(moov: &[u8]) -> Option<Advice> {
    let ask = "whose atoms have version 0";
    let said = |name: &str, of: String, means: &str| {
        Advice::undamaged(format!("the {name}{of} has version 1{means}, and only version 0 is read"), ask)
    };
    if atoms::moov_child(moov, b"mvhd").is_some_and(|mvhd| mvhd.first() == Some(&1)) {
        return Some(said("mvhd", String::new(), ", with times of 64 bits"));
    }
    atoms::traks(moov).find_map(|trak| {
        let of = format!(" of track {}", trak.id()?);
        let (name, leaf) = trak.read_leaves().into_iter().find(|(_, leaf)| leaf.first().is_some_and(|v| *v != 0))?;
        if leaf[0] != 1 {
            return None;
        }
        match name {
            b"ctts" => Some(Advice::undamaged(
                format!(
                    "track {} has B-frames with negative offsets (a ctts of version 1), and only version 0 is read",
                    trak.id()?
                ),
                "without B-frames",
            )),
            b"tkhd" | b"mdhd" | b"elst" => Some(said(std::str::from_utf8(name).ok()?, of, ", with times of 64 bits")),
            name => Some(said(std::str::from_utf8(name).ok()?, of, "")),
        }
    })
}

/// A track of too many samples: how many it has, and when the limit is reached.
fn too_many_samples(trak: Trak) -> Option<Advice> {
    let count = trak.number(&[b"mdia", b"minf", b"stbl", b"stsz"], 8).filter(|count| *count > MOST_SAMPLES)?;
    let (id, scale) = (trak.id()?, trak.scale().filter(|scale| *scale > 0)?);
    let reached = trak.time_of(MOST_SAMPLES);
    let (kind, things, ask) = match &trak.subtype() {
        b"soun" => (" (sound)", "samples", "with compressed sound, or none"),
        b"vide" => (" (video)", "pictures", "that begin a new file before that"),
        _ => ("", "samples", "that begin a new file before that"),
    };
    let [count, most] = [count, MOST_SAMPLES].map(|n| grouped(n.into()));
    let reached = brief(reached, scale.into());
    let what = format!(
        "track {id}{kind} has {count} {things}, and a track may have {most}, which are reached after {reached}"
    );
    Some(Advice::undamaged(what, ask))
}

/// The first edit of a track that is wrong.
fn wrong_edits(moov: &[u8], trak: Trak) -> Option<Advice> {
    let id = trak.id()?;
    let [scale, total, movie_scale] =
        [trak.scale()?.into(), trak.total(), atoms::number(atoms::moov_child(moov, b"mvhd")?, 12)?.into()];
    let edits = trak.edits()?;
    if edits.is_empty() {
        return Some(Advice::undamaged(format!("the edit list of track {id} is empty"), "without such edit lists"));
    }
    edits.into_iter().find_map(|[duration, media, rate]| {
        let without = |what: String| Some(Advice::undamaged(what, "without such edits"));
        let last = u64::from(duration).saturating_sub(1).saturating_mul(scale).checked_div(movie_scale)?;
        match i64::from(media as i32) {
            _ if duration == 0 => without(format!("track {id} has an edit of duration 0, which shows nothing")),
            _ if rate != PLAIN_RATE => {
                without(format!("track {id} has an edit that is shown at another speed than its own"))
            }
            -1 => None,
            ..=-2 => without(format!("track {id} has an edit that begins before its media")),
            _ if u64::from(media) + last < total => None,
            _ => Some(ends_past(&trak, id, u64::from(media) + last + 1, total, scale)),
        }
    })
}

/// An edit that ends past the samples. Films with B-frames are made so by many programs, since their first picture is shown late.
fn ends_past(trak: &Trak, id: u32, end: u64, total: u64, scale: u64) -> Advice {
    let (at, samples) = (clock_of(end, scale), clock_of(total, scale));
    let past = format!("ends {} units past its samples (at {at}, and they end at {samples})", end - total);
    if trak.ctts().is_some() {
        return Advice::undamaged(format!("track {id} has B-frames, and its edit list {past}"), "without B-frames");
    }
    Advice::undamaged(format!("the edit list of track {id} {past}"), "whose edit lists end with their samples")
}

/// A number with commas between its thousands.
pub fn grouped(n: u64) -> String {
    let digits = n.to_string();
    let before = |i: usize| if i > 0 && (digits.len() - i) % 3 == 0 { "," } else { "" };
    digits.char_indices().map(|(i, digit)| format!("{}{digit}", before(i))).collect()
}

#[cfg(test)]
mod tests {
    use super::*;

    #[test]
    fn thousands() {
        for (n, text) in [(0, "0"), (999, "999"), (1000, "1,000"), (311_760, "311,760"), (1_048_576, "1,048,576")] {
            assert_eq!(grouped(n), text);
        }
    }

    #[test]
    fn files_that_are_cut_off() {
        assert_eq!(cut_off(311_760, true), "the file is cut off: 311,760 bytes are missing; copy it again");
        let words = "the file is cut off: at least 1 byte is missing, and the tables with them; copy it again";
        assert_eq!(cut_off(1, false), words);
    }
}
