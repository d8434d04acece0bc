//! The lines of a film: for each question the result, every place and every place of the room.
use reference::movie::*;

/// What every place and every byte of a room holds before a question.
const PLACE: u32 = 77_777;
const BYTE: u8 = 0xee;

/// An ID that no film has.
const STRANGER: u32 = 999;

type Moov = MoovAlone<Vec<u8>>;

fn numbers<N: ToString>(places: &[N]) -> String {
    places.iter().map(|n| format!(" {}", n.to_string())).collect()
}

fn sample_line(film: &Moov, id: u32, n: u32) -> String {
    let (result, s) = sample(film, id, n);
    let times = format!("{} {} {} {}", s.decode_time, s.duration, s.composition_time, u32::from(s.is_sync));
    format!("  sample {id} {n}: {result} {times} {} {} {} {}\n", s.description_id, s.chunk, s.offset, s.size)
}

fn at_line(film: &Moov, id: u32, t: u32) -> String {
    let (result, (n, entry)) = sample_at(film, id, t);
    format!("  at {id} {t}: {result} {n} {entry}\n")
}

fn map_line(film: &Moov, id: u32, t: u32) -> String {
    let numbers = match media_time(film, id, t) {
        MediaTime::At(time) => format!("0 1 {time}"),
        MediaTime::NothingShown => "0 0 0".to_string(),
        MediaTime::Refused(number) => format!("{number} 0 0"),
    };
    format!("  map {id} {t}: {numbers}\n")
}

fn feature_line(film: &Moov, id: u32, code: &[u8; 4]) -> String {
    let code = u32::from_be_bytes(*code);
    let (result, value) = feature(film, id, code);
    format!("  feature {id} {code}: {result} {value}\n")
}

fn profile_line(film: &Moov, id: u32) -> String {
    let mut room = [PLACE; 6];
    let (result, count) = stored_profile(film, id, &mut room);
    format!("  profile {id} 6: {result} {count}{}\n", numbers(&room))
}

fn stretch_line(film: &Moov, id: u32, a: u32, b: u32, places: usize) -> String {
    let mut room = vec![u64::from(PLACE); places];
    let (result, (count, bytes)) = stretch(film, id, a, b, &mut room);
    format!("  stretch {id} {a} {b}: {result} {count} {bytes}{}\n", numbers(&room))
}

fn slip_line(film: &Moov, id: u32, a: u32, b: u32) -> String {
    let mut room = [BYTE; 64];
    let (result, length) = write_slip(film, id, a, b, &mut room);
    let hex: String = room.iter().map(|byte| format!("{byte:02x}")).collect();
    format!("  slip {id} {a} {b}: {result} {length} {hex}\n")
}

fn time(film: &Moov, id: u32, t: u32) -> String {
    at_line(film, id, t) + &map_line(film, id, t)
}

fn between(film: &Moov, id: u32, a: u32, b: u32) -> String {
    stretch_line(film, id, a, b, 16) + &slip_line(film, id, a, b)
}

fn track(film: &Moov, id: u32) -> String {
    let samples: String = (0..=5).map(|n| sample_line(film, id, n)).collect();
    let times: String = [0, 24, 72, 119, 120].iter().map(|t| time(film, id, *t)).collect();
    let stretches: String = [(24, 73), (0, 120), (24, 24)].iter().map(|(a, b)| between(film, id, *a, *b)).collect();
    // W's whole stretch with just the room for its two pairs, and for seven, and with one place less than each.
    let rooms: String = [4, 3, 14, 13].iter().map(|places| stretch_line(film, id, 0, 120, *places)).collect();
    let codes = [b"avvb", b"tvsz", b"vfps", b"mvbr"];
    let features: String = codes.iter().map(|code| feature_line(film, id, code)).collect();
    samples + &times + &stretches + &rooms + &features + &profile_line(film, id)
}

/// Each question once.
fn each(film: &Moov, id: u32) -> String {
    let one = sample_line(film, id, 1) + &time(film, id, 0) + &between(film, id, 0, 1);
    one + &feature_line(film, id, b"avvb") + &profile_line(film, id)
}

pub fn lines(film: &Moov) -> String {
    let mut room = [PLACE; 24];
    let (result, count) = track_list(film, &mut room);
    let mut lines = format!("  tracks 0 24: {result} {count}{}\n", numbers(&room));
    for line in room.chunks(8).take(usize::try_from(count).unwrap()) {
        lines += &track(film, line[0]);
    }
    for id in [0, 1, STRANGER] {
        lines += &each(film, id);
    }
    lines
}
