//! The line of a question, with all that is answered.
use super::asks::{Ask, Kind, Times, BYTES};
use reference::movie::*;
use reference::slip::{read_slip, Head};

/// What every place and every byte of a room holds before a question.
const PLACE: u32 = 0xeeee_eeee;
const BYTE: u8 = 0xee;

fn untouched<T: PartialEq>(room: &[T], guard: T) -> &str {
    if room.iter().all(|n| *n == guard) {
        "untouched"
    } else {
        "touched"
    }
}

/// Each pair; of pairs in a row that are alike the first, with how many there are.
fn pairs(places: &[u32]) -> String {
    let mut runs: Vec<(&[u32], usize)> = Vec::new();
    for pair in places.chunks(2) {
        match runs.last_mut() {
            Some((last, times)) if *last == pair => *times += 1,
            _ => runs.push((pair, 1)),
        }
    }
    let shown = |(pair, times): &(&[u32], usize)| {
        let row = if *times > 1 { format!(" x{times}") } else { String::new() };
        format!(" {}+{}{row}", pair[0], pair[1])
    };
    runs.iter().map(shown).collect()
}

fn stretch_line(film: &[u8], id: u32, (a, b): Times, length: usize) -> String {
    let mut room = vec![PLACE; length];
    let (number, (count, bytes)) = stretch(film, id, a, b, &mut room);
    if number != 0 {
        return format!("refused {number}, {}", untouched(&room, PLACE));
    }
    let (filled, rest) = room.split_at(2 * usize::try_from(count).unwrap());
    assert!(!filled.contains(&PLACE));
    format!("{count} pairs, {bytes} bytes:{}, rest {}", pairs(filled), untouched(rest, PLACE))
}

/// The scale of a track, from the list.
fn scale(film: &[u8], id: u32) -> u32 {
    let mut room = [0; 128];
    track_list(film, &mut room);
    room.chunks(8).find(|track| track[0] == id).unwrap()[2]
}

/// Whether a slip is read as what the stretch answers.
fn reads_back(film: &[u8], id: u32, (a, b): Times, slip: &[u8]) -> bool {
    let places = usize::try_from(BYTES).unwrap();
    let (mut read, mut asked) = (vec![PLACE; places], vec![PLACE; places]);
    let (number, head, _) = read_slip(slip, &mut read);
    let (_, (count, _)) = stretch(film, id, a, b, &mut asked);
    let expected = Head { id, scale: scale(film, id), a, b, pairs: u32::try_from(count).unwrap() };
    number == 0 && head == expected && read == asked
}

fn slip_line(film: &[u8], id: u32, times: Times, length: usize) -> String {
    let mut room = vec![BYTE; length];
    let (number, count) = write_slip(film, id, times.0, times.1, &mut room);
    if number != 0 {
        return format!("refused {number}, {}", untouched(&room, BYTE));
    }
    let (slip, rest) = room.split_at(usize::try_from(count).unwrap());
    let hex: String = slip.iter().map(|byte| format!("{byte:02x}")).collect();
    let read = if reads_back(film, id, times, slip) { "reads back" } else { "differs" };
    format!("{count} bytes {hex}, rest {}, {read}", untouched(rest, BYTE))
}

pub fn line(film: &[u8], ask: &Ask) -> String {
    let (id, (a, b), room) = (ask.id, ask.times, ask.room);
    let length = usize::try_from(room).unwrap();
    match ask.kind {
        Kind::Stretch => format!("stretch {id} {a} {b} room {room}: {}", stretch_line(film, id, ask.times, length)),
        Kind::Slip => format!("slip {id} {a} {b} room {room}: {}", slip_line(film, id, ask.times, length)),
    }
}
