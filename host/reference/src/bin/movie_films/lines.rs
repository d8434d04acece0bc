//! The lines of a film: its refusal, by default and strictly, and its track list asked for with rooms of several lengths.
use reference::movie::{refusal, strict_refusal, track_list};

/// What every place holds before a list is asked for. No list has it, so that a place that was left is told from one that was filled.
const GUARD: u32 = 0xeeee_eeee;

/// The places of the longest room.
const PLACES: usize = 136;

/// What the list answers with a room of so many places, and what stands in them after it.
fn room(film: &[u8], places: usize) -> String {
    let mut room = vec![GUARD; places];
    let (number, count) = track_list(film, &mut room);
    if number == 0 {
        assert!(!room[..8 * usize::try_from(count).unwrap()].contains(&GUARD));
        let each: Vec<String> = room.iter().map(|n| format!(" {n}")).collect();
        return format!("room {places}: tracks {count}, places{}", each.concat());
    }
    let state = if room.iter().all(|n| *n == GUARD) { "untouched" } else { "touched" };
    format!("room {places}: refused {number}, {state}")
}

/// A refused film has one line: "lent buffers keep their contents", and its number comes before 16. An accepted one has a line for each room: as
/// long as the list, three longer, one shorter, and empty.
pub fn lines(name: &str, film: &[u8]) -> String {
    let (number, strict) = (refusal(film), strict_refusal(film));
    if number != 0 {
        return format!("{name}: {number}, strictly {strict}; {}; {}\n", room(film, PLACES), room(film, 0));
    }
    let (_, count) = track_list(film, &mut [GUARD; PLACES]);
    let length = 8 * usize::try_from(count).unwrap();
    let mut rooms = vec![length, length + 3];
    if length > 0 {
        rooms.extend([length - 1, 0]);
    }
    let each: Vec<String> = rooms.iter().map(|places| format!("  {}\n", room(film, *places))).collect();
    format!("{name}: {number}, strictly {strict}\n{}", each.concat())
}
