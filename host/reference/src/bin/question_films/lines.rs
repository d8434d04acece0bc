//! The line of a question, with all that is answered.
use super::asks::{Ask, Kind, CODES};
use reference::movie::*;

/// What every place of a room holds before a profile is asked for. No profile has it, so that a place that was left is told from one that was
/// filled.
const GUARD: u32 = 0xeeee_eeee;

/// How many bytes are handed back, and their sum.
fn bytes(film: &[u8], id: u32, n: u32) -> String {
    let (offset, length) = sample_bytes(film, id, n);
    let begin = usize::try_from(offset).unwrap();
    let bytes = &film[begin..begin + usize::try_from(length).unwrap()];
    let sum: u64 = bytes.iter().map(|byte| u64::from(*byte)).sum();
    format!("bytes {length} sum {sum}")
}

fn sample_line(film: &[u8], id: u32, n: u32) -> String {
    let (number, s) = sample(film, id, n);
    let bytes = bytes(film, id, n);
    if number != 0 {
        return format!("refused {number}, {bytes}");
    }
    let sync = if s.is_sync { "sync" } else { "not sync" };
    let times = format!("{} {} {}", s.decode_time, s.duration, s.composition_time);
    format!("{times} {sync} {} chunk {} {} {}, {bytes}", s.description_id, s.chunk, s.offset, s.size)
}

fn at_line(film: &[u8], id: u32, t: u32) -> String {
    match sample_at(film, id, t) {
        (0, (n, entry)) => format!("{n} entry {entry}"),
        (number, _) => format!("refused {number}"),
    }
}

fn map_line(film: &[u8], id: u32, t: u32) -> String {
    match media_time(film, id, t) {
        MediaTime::At(time) => time.to_string(),
        MediaTime::NothingShown => "nothing".to_string(),
        MediaTime::Refused(number) => format!("refused {number}"),
    }
}

fn feature_line(film: &[u8], id: u32, code: u32) -> String {
    match feature(film, id, code) {
        (0, value) => format!("{value} = 0x{value:08x}"),
        (number, _) => format!("refused {number}"),
    }
}

fn peak_line(film: &[u8], id: u32, code: u32) -> String {
    match peak(film, id, code) {
        (0, (first, samples)) => format!("from {first} count {samples}"),
        (number, _) => format!("refused {number}"),
    }
}

/// The name of a feature; of another code the hex digits.
fn code_name(code: u32) -> String {
    match CODES.iter().find(|name| u32::from_be_bytes(***name) == code) {
        Some(name) => String::from_utf8(name.to_vec()).unwrap(),
        None => format!("{code:08x}"),
    }
}

fn untouched(room: &[u32]) -> &str {
    if room.iter().all(|n| *n == GUARD) {
        "untouched"
    } else {
        "touched"
    }
}

fn profile_line(film: &[u8], id: u32, length: u32) -> String {
    let mut room = vec![GUARD; usize::try_from(length).unwrap()];
    let (number, count) = stored_profile(film, id, &mut room);
    if number != 0 {
        return format!("refused {number}, {}", untouched(&room));
    }
    let (filled, rest) = room.split_at(3 * usize::try_from(count).unwrap());
    assert!(!filled.contains(&GUARD));
    let each: Vec<String> = filled.iter().map(|n| format!(" {n}")).collect();
    format!("{count} records{}, rest {}", each.concat(), untouched(rest))
}

pub fn line(film: &[u8], ask: &Ask) -> String {
    let (id, n) = (ask.id, ask.n);
    match ask.kind {
        Kind::Sample => format!("sample {id} {n}: {}", sample_line(film, id, n)),
        Kind::At => format!("at {id} {n}: {}", at_line(film, id, n)),
        Kind::Map => format!("map {id} {n}: {}", map_line(film, id, n)),
        Kind::Feature => format!("feature {id} {}: {}", code_name(n), feature_line(film, id, n)),
        Kind::Peak => format!("peak {id} {}: {}", code_name(n), peak_line(film, id, n)),
        Kind::Profile => format!("profile {id} room {n}: {}", profile_line(film, id, n)),
    }
}
