//! Slips that are malformed, each rule broken at each number, and the places by hand.
use super::base::Cases;
use super::slips::largest;
use std::ops::Range;

/// The slip of film W's stretch 24 to 73.
pub const PAPER: [u8; 13] = [0x01, 0x01, 0xd8, 0x04, 0x18, 0x49, 0x02, 0xcc, 0x08, 0x32, 0x84, 0x07, 0x46];

/// The numbers of that slip, and where their bytes are.
const NUMBERS: [(&str, Range<usize>); 10] = [
    ("form", 0..1),
    ("id", 1..2),
    ("scale", 2..4),
    ("a", 4..5),
    ("b", 5..6),
    ("number-of-pairs", 6..7),
    ("first-offset", 7..9),
    ("first-length", 9..10),
    ("last-offset", 10..12),
    ("last-length", 12..13),
];

/// The paper's slip with those bytes exchanged for others.
pub fn exchanged(part: Range<usize>, bytes: &[u8]) -> Vec<u8> {
    [&PAPER[..part.start], bytes, &PAPER[part.end..]].concat()
}

/// A number's bytes with the top bit set on the last too, and others after them.
fn longer(number: &[u8], rest: &[u8]) -> Vec<u8> {
    let mut bytes = number.to_vec();
    *bytes.last_mut().unwrap() |= 0x80;
    [&bytes[..], rest].concat()
}

/// The same up to four bytes, and a fifth one.
fn with_fifth(number: &[u8], fifth: &[u8]) -> Vec<u8> {
    longer(number, &[&vec![0x80; 4 - number.len()], fifth].concat())
}

/// A number that is not written as it should be, at each place; also where the slip ends with it.
fn broken(cases: &mut Cases) {
    for (name, part) in NUMBERS {
        let (number, start) = (&PAPER[part.clone()], part.start);
        let wrong = [
            ("padded", longer(number, &[0x00])),
            ("padded-to-five-bytes", with_fifth(number, &[0x00])),
            ("2-32", vec![0x80, 0x80, 0x80, 0x80, 0x10]),
            ("2-32-more", with_fifth(number, &[0x10])),
            ("2-35-less-one", vec![0xff, 0xff, 0xff, 0xff, 0x7f]),
            ("2-35-more", with_fifth(number, &[0x80, 0x01])),
        ];
        for (fault, bytes) in wrong {
            cases.malformed(&format!("{name}-{fault}"), &exchanged(part.clone(), &bytes), start);
        }
        let ending = |bytes: &[u8]| [&PAPER[..start], bytes].concat();
        cases.malformed(&format!("{name}-padded-at-the-end"), &ending(&longer(number, &[0x00])), start);
        cases.malformed(&format!("{name}-of-five-top-bits-at-the-end"), &ending(&[0x80; 5]), start);
        cases.malformed(&format!("{name}-of-six-top-bits-at-the-end"), &ending(&[0xff; 6]), start);
        cases.malformed(&format!("{name}-of-four-top-bits-at-the-end"), &ending(&[0x80; 4]), start + 4);
        cases.malformed(&format!("{name}-of-one-top-bit-at-the-end"), &ending(&[0x81]), start + 1);
    }
    let both = [0x80, 0x80, 0x80, 0x80, 0x10, 0x81, 0x80, 0x80, 0x80, 0x10];
    cases.malformed("a-2-32-b-2-32-and-1", &exchanged(4..6, &both), 4);
}

/// A number that breaks its rule; also where the slip ends with it.
fn rules(cases: &mut Cases) {
    let wrong: [(&str, Range<usize>, &[u8]); 12] = [
        ("form-0", 0..1, &[0x00]),
        ("form-2", 0..1, &[0x02]),
        ("form-129", 0..1, &[0x81, 0x01]),
        ("form-2-32-less-one", 0..1, &[0xff, 0xff, 0xff, 0xff, 0x0f]),
        ("id-0", 1..2, &[0x00]),
        ("scale-0", 2..4, &[0x00]),
        ("b-is-a", 5..6, &[0x18]),
        ("b-is-a-less-one", 5..6, &[0x17]),
        ("b-0", 5..6, &[0x00]),
        ("0-pairs", 6..7, &[0x00]),
        ("1048577-pairs", 6..7, &[0x81, 0x80, 0x40]),
        ("2-32-less-one-pairs", 6..7, &[0xff, 0xff, 0xff, 0xff, 0x0f]),
    ];
    for (name, part, bytes) in wrong {
        cases.malformed(name, &exchanged(part.clone(), bytes), part.start);
        cases.malformed(&format!("{name}-at-the-end"), &[&PAPER[..part.start], bytes].concat(), part.start);
    }
    // The number before is exchanged, and b is at fault.
    cases.malformed("a-is-b", &exchanged(4..5, &[0x49]), 5);
    cases.malformed("a-is-b-and-1", &exchanged(4..5, &[0x4a]), 5);
    cases.malformed("a-2-32-less-one", &exchanged(4..5, &[0xff, 0xff, 0xff, 0xff, 0x0f]), 9);
    cases.malformed("a-and-b-0", &exchanged(4..6, &[0x00, 0x00]), 5);
}

/// Each beginning of a slip, the empty one too.
fn beginnings(cases: &mut Cases) {
    for end in 0..PAPER.len() {
        cases.malformed("the-papers-slip-ends", &PAPER[..end], end);
    }
    let largest = largest();
    for end in 2..largest.len() {
        cases.malformed("largest-numbers-end", &largest[..end], end);
    }
}

/// Pairs that are missing, and bytes that follow.
fn ends(cases: &mut Cases) {
    cases.malformed("one-pair-missing", &exchanged(6..7, &[0x03]), 13);
    cases.malformed("half-a-pair-missing", &PAPER[..12], 12);
    cases.malformed("1048576-pairs-that-are-missing", &exchanged(6..7, &[0x80, 0x80, 0x40]), 15);
    cases.malformed("one-pair-too-many", &exchanged(6..7, &[0x01]), 10);
    cases.malformed("half-a-pair-too-many", &exchanged(6..7, &[0x01])[..12], 10);
    let surplus: [(&str, &[u8]); 9] = [
        ("00", &[0x00]),
        ("01", &[0x01]),
        ("80", &[0x80]),
        ("line-feed", &[0x0a]),
        ("a-number", &[0xcc, 0x08]),
        ("a-padded-number", &[0x80, 0x00]),
        ("four-top-bits", &[0x80; 4]),
        ("five-top-bits", &[0x80; 5]),
        ("the-slip-again", &PAPER),
    ];
    for (name, bytes) in surplus {
        cases.malformed(&format!("surplus-{name}"), &[&PAPER, bytes].concat(), 13);
    }
}

/// Two faults: the first counts, whichever it is.
fn first_of_two(cases: &mut Cases) {
    let with_surplus = |slip: &[u8]| [slip, &[0x00]].concat();
    cases.malformed("form-2-and-id-0", &exchanged(0..2, &[0x02, 0x00]), 0);
    cases.malformed("form-2-and-an-early-end", &[0x02, 0x80], 0);
    cases.malformed("form-padded-and-id-0", &exchanged(0..2, &[0x81, 0x00, 0x00]), 0);
    cases.malformed("id-0-and-scale-0", &exchanged(1..4, &[0x00, 0x00]), 1);
    cases.malformed("id-0-and-an-early-end", &[0x01, 0x00, 0xd8], 1);
    cases.malformed("id-0-and-surplus", &with_surplus(&exchanged(1..2, &[0x00])), 1);
    cases.malformed("scale-0-and-b-padded", &exchanged(2..6, &[0x00, 0x18, 0xc9, 0x00]), 2);
    cases.malformed("b-is-a-and-0-pairs", &exchanged(5..7, &[0x18, 0x00]), 5);
    cases.malformed("b-is-a-and-surplus", &with_surplus(&exchanged(5..6, &[0x18])), 5);
    cases.malformed("0-pairs-and-an-offset-padded", &exchanged(6..9, &[0x00, 0xcc, 0x88, 0x00]), 6);
    cases.malformed("last-length-padded-and-surplus", &with_surplus(&exchanged(12..13, &[0xc6, 0x00])), 12);
    cases.malformed("a-length-padded-and-a-pair-missing", &exchanged(6..10, &[0x03, 0xcc, 0x08, 0xb2, 0x00]), 9);
}

pub fn cases(cases: &mut Cases) {
    rules(cases);
    broken(cases);
    beginnings(cases);
    ends(cases);
    first_of_two(cases);
}
