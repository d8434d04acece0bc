//! What the first fault of a malformed slip is, by its place: so that the counts show that each was met.
use reference::slip::{cut, value_within, FORM_2};

/// The kinds of faults: which number breaks a rule, or that the slip ends early or late.
pub const FAULTS: [&str; 10] =
    ["form", "ID", "scale", "a", "b", "number of pairs", "offset", "length", "early end", "surplus"];

/// The kind of the fault at a place, as an index of `FAULTS`.
pub fn kind(slip: &[u8], place: usize) -> usize {
    let (before, _) = cut(&slip[..place]);
    let is_whole =
        before.len() > 5 && Ok(before.len()) == usize::try_from(6 + 2 * value_within(FORM_2, &before[5]).unwrap());
    match before.len() {
        _ if place == slip.len() => 8,
        _ if is_whole => 9,
        n if n < 6 => n,
        n => 6 + n % 2,
    }
}

#[cfg(test)]
mod tests {
    use super::kind;

    #[test]
    fn kinds() {
        let slip = [0x01, 0x01, 0xd8, 0x04, 0x18, 0x49, 0x01, 0xcc, 0x08, 0x32, 0x00];
        for (place, expected) in [(0, 0), (1, 1), (2, 2), (4, 3), (5, 4), (6, 5), (7, 6), (9, 7), (10, 9), (11, 8)] {
            assert_eq!(kind(&slip, place), expected, "{place}");
        }
        assert_eq!(kind(&[], 0), 8);
    }
}
