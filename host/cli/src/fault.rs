//! Where and how a slip goes wrong, for whoever has to mend it. The place is the library's; the words follow from it and judge nothing.
use chaldoref::{MalformedSlip, Refusal};
use std::fmt::Write;

/// How many bytes a row of hex has, and how many rows are shown before and after the one at fault.
const ROW: usize = 16;
const AROUND: usize = 2;

/// The first numbers of a slip. Pairs follow.
const HEAD: [&str; 6] = ["form", "track ID", "scale", "a", "b", "number of pairs"];

/// The first fault of a malformed slip.
pub struct Fault {
    pub place: usize,
    /// Which number is at fault; none where bytes follow the last.
    pub number: Option<String>,
    /// The rule that it breaks.
    pub rule: String,
    /// The slip in hex, or the part of it that is around the fault, and a mark below the place.
    picture: String,
    /// Whether the bytes begin as a film does.
    is_film: bool,
}

/// What is said of bytes that begin as a film does.
pub const IS_FILM: &str = "this is a film, not a slip";

/// The atoms that films begin with.
const FIRST_ATOMS: [&[u8]; 7] = [b"ftyp", b"moov", b"mdat", b"wide", b"free", b"skip", b"pnot"];

/// Whether bytes begin as a film does.
fn is_film(bytes: &[u8]) -> bool {
    bytes.get(4..8).is_some_and(|kind| FIRST_ATOMS.contains(&kind))
}

impl Fault {
    pub fn of(slip: &[u8], malformed: MalformedSlip) -> Fault {
        let place = malformed.place;
        // Every number before the place is good, and ends with a byte that has no top bit.
        let ends = || (0..place).filter(|i| slip[*i] < 128);
        let (before, start) = (ends().count(), ends().next_back().map_or(0, |last| last + 1));
        let head: Vec<usize> = ends().take(HEAD.len()).collect();
        let values = |i: usize| value(&slip[i.checked_sub(1).map_or(0, |before| head[before] + 1)..=head[i]]);
        let width = if slip.first() == Some(&2) { &FORM_2 } else { &FORM_1 };
        let (number, rule) = if place == slip.len() {
            (Some(called(before)), ends_early(start, place))
        } else if before >= HEAD.len() && Ok(before) == usize::try_from(6 + 2 * values(5)) {
            (None, surplus(slip.len() - place))
        } else if place == 0 && slip[0] == 2 {
            (Some(called(0)), "it is 2, and no number of the slip is 2^32 or more: it must be 1".to_string())
        } else {
            let a = if before == 4 { values(3) } else { 0 };
            (Some(called(before)), broken(before, &slip[place..], a, width))
        };
        Fault { place, number, rule, picture: picture(slip, place), is_film: is_film(slip) }
    }

    /// The lines that people are told, after the one with the refusal.
    pub fn lines(&self) -> String {
        format!("{}{}\n", self.picture, self.line())
    }

    /// What may have happened, if that is known.
    pub fn hint(&self) -> Option<&'static str> {
        self.is_film.then_some(IS_FILM)
    }

    /// The place, the number and the rule.
    pub fn line(&self) -> String {
        let number = self.number.as_ref().map_or(String::new(), |number| format!(", {number}"));
        format!("place {}{number}: {}", self.place, self.rule)
    }

    pub fn refusal(&self) -> Refusal {
        Refusal::MalformedSlip
    }
}

/// What the number is called that so many numbers stand before.
fn called(before: usize) -> String {
    match before.checked_sub(HEAD.len()) {
        None => HEAD[before].to_string(),
        Some(rest) => format!("{} of pair {}", ["offset", "length"][rest % 2], rest / 2 + 1),
    }
}

/// The value of a number's bytes, at most ten.
fn value(bytes: &[u8]) -> u128 {
    bytes.iter().rev().fold(0, |high, byte| high << 7 | u128::from(byte & 127))
}

fn ends_early(start: usize, end: usize) -> String {
    if start == end {
        "the slip ends before it".to_string()
    } else {
        format!("the slip ends inside it; it begins at place {start}")
    }
}

fn surplus(bytes: usize) -> String {
    let follow = if bytes == 1 { "byte follows" } else { "bytes follow" };
    format!("{bytes} {follow} the last number")
}

/// How many bytes the numbers of a form have at most, the last of these in words, and the power of two that they are below.
struct Width {
    most: usize,
    last: &'static str,
    power: u32,
}

const FORM_1: Width = Width { most: 5, last: "fifth", power: 32 };
const FORM_2: Width = Width { most: 10, last: "tenth", power: 64 };

/// The rule that the number at the head of these bytes breaks, so many standing before it. The form itself has the width of form 1.
fn broken(before: usize, bytes: &[u8], a: u128, width: &Width) -> String {
    let Width { most, last, power } = *width;
    let number = match bytes.iter().take(most).position(|byte| *byte < 128) {
        Some(last) => &bytes[..=last],
        None => return format!("the top bit is set on its {last} byte"),
    };
    let n = value(number);
    if number.len() > 1 && number.ends_with(&[0]) {
        return "it is not written in the fewest bytes".to_string();
    }
    if n >= 1 << power {
        return format!("it is {n}, and must be below 2^{power}");
    }
    match before {
        0 => format!("it is {n}, and must be 1 or 2"),
        1 | 2 => "it is 0, and must not be".to_string(),
        4 => format!("it is {n}, and must be above a, which is {a}"),
        _ => format!("it is {n}, and must be 1 to 1048576"),
    }
}

/// Rows of hex, each after the place of its first byte. The place at fault, which may be past the last byte, is marked below.
fn picture(slip: &[u8], place: usize) -> String {
    let row_at_fault = place / ROW;
    let last = (slip.len().saturating_sub(1) / ROW).max(row_at_fault);
    let rows = row_at_fault.saturating_sub(AROUND)..=(row_at_fault + AROUND).min(last);
    let wide = (rows.end() * ROW).to_string().len();
    let mut text = String::new();
    for row in rows {
        let start = row * ROW;
        let bytes = &slip[start..(start + ROW).min(slip.len())];
        let hex: Vec<String> = bytes.iter().map(|byte| format!("{byte:02X}")).collect();
        // Writing to a text does not fail.
        let _ = writeln!(text, "{}", format!("  {start:>wide$}  {}", hex.join(" ")).trim_end());
        if row == row_at_fault {
            let _ = writeln!(text, "  {:wide$}  {}^^", "", "   ".repeat(place - start));
        }
    }
    text
}

#[cfg(test)]
mod tests {
    use super::*;

    const SLIP: [u8; 13] = [0x01, 0x01, 0xd8, 0x04, 0x18, 0x49, 0x02, 0xcc, 0x08, 0x32, 0x84, 0x07, 0x46];

    #[test]
    fn numbers_have_their_names() {
        let names: Vec<String> = (0..10).map(called).collect();
        let pairs = ["offset of pair 1", "length of pair 1", "offset of pair 2", "length of pair 2"];
        assert_eq!(names, [&HEAD[..], &pairs].concat());
    }

    #[test]
    fn values() {
        assert_eq!(value(&[0xd8, 0x04]), 600);
        assert_eq!(value(&[0xff, 0xff, 0xff, 0xff, 0x7f]), (1 << 35) - 1);
    }

    #[test]
    fn a_short_slip_is_shown_whole() {
        assert_eq!(picture(&SLIP, 5), "  0  01 01 D8 04 18 49 02 CC 08 32 84 07 46\n                    ^^\n");
        assert_eq!(picture(&SLIP[..2], 2), "  0  01 01\n           ^^\n");
        assert_eq!(picture(&[], 0), "  0\n     ^^\n");
        // Past a full row the mark stands in a row of its own.
        assert_eq!(picture(&[7; 16], 16).lines().skip(1).collect::<Vec<_>>(), ["  16", "      ^^"]);
    }

    #[test]
    fn of_a_long_slip_the_rows_around_are_shown() {
        let shown = picture(&[7; 1000], 100);
        let rows: Vec<&str> = shown.lines().map(|line| line.split_whitespace().next().unwrap()).collect();
        assert_eq!(rows, ["64", "80", "96", "^^", "112", "128"]);
        assert_eq!(shown.lines().nth(3), Some("                   ^^"));
    }
}
