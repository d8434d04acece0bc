//! Numbers and slips written, where they fit and where they do not.
use super::base::Cases;
use super::slips::many_pairs;
use reference::slip::Head;

const PAPER: Head<u64> = Head { id: 1, scale: 600, a: 24, b: 73, pairs: 2 };
const PAPER_PAIRS: [u64; 4] = [1100, 50, 900, 70];

/// A head whose five numbers are the same.
fn same(n: u64) -> Head<u64> {
    Head { id: n, scale: n, a: n, b: n, pairs: n }
}

/// Each number of so many bytes at the ends, at place 1 of twelve bytes.
fn numbers(cases: &mut Cases) {
    for n in [0, 127, 128, 16383, 16384, (1 << 28) - 1, 1 << 28, (1 << 32) - 1] {
        cases.write_number(&n.to_string(), n, 1, 12);
    }
    for n in [1 << 32, (1 << 32) + 1, 1 << 35, 1 << 63, u64::MAX] {
        cases.write_number(&n.to_string(), n, 1, 12);
    }
}

fn rooms(cases: &mut Cases) {
    cases.write_number("exact", 16384, 0, 3);
    cases.write_number("exact-not-at-0", 16384, 2, 5);
    cases.write_number("room-after-it", 16384, 1, 6);
    cases.write_number("one-short", 16384, 0, 2);
    cases.write_number("one-short-not-at-0", 16384, 2, 4);
    cases.write_number("longer-than-all-the-bytes", 16384, 1, 2);
    cases.write_number("of-one-byte-at-the-last-place", 127, 3, 4);
    cases.write_number("of-one-byte-at-the-end", 127, 4, 4);
    cases.write_number("past-the-end", 0, 5, 4);
    cases.write_number("far-past-the-end", 0, usize::MAX, 4);
    cases.write_number("no-room", 0, 0, 0);
    cases.write_number("of-ten-bytes-exact", u64::MAX, 0, 10);
    cases.write_number("of-ten-bytes-one-short", u64::MAX, 0, 9);
}

fn heads(cases: &mut Cases) {
    let mixed = Head { id: 128, scale: 127, a: 16384, b: 16383, pairs: 2_097_152 };
    cases.write_slip("head-exact", PAPER, false, &[], 7);
    cases.write_slip("head-one-short", PAPER, false, &[], 6);
    cases.write_slip("head-room-after-it", PAPER, false, &[], 10);
    cases.write_slip("head-no-room", PAPER, false, &[], 0);
    cases.write_slip("head-of-zeros-exact", same(0), false, &[], 6);
    cases.write_slip("head-of-zeros-one-short", same(0), false, &[], 5);
    cases.write_slip("head-of-the-largest-exact", same(u64::from(u32::MAX)), false, &[], 26);
    cases.write_slip("head-of-the-largest-one-short", same(u64::from(u32::MAX)), false, &[], 25);
    cases.write_slip("head-of-one-to-four-bytes", mixed, false, &[], 13);
}

fn slips(cases: &mut Cases) {
    cases.write_slip("room-after-it", PAPER, false, &PAPER_PAIRS, 16);
    cases.write_slip("exact", PAPER, false, &PAPER_PAIRS, 13);
    cases.write_slip("one-short", PAPER, false, &PAPER_PAIRS, 12);
    // More would not fit a case of 4,096 bytes.
    let pairs: Vec<u64> = many_pairs().into_iter().take(500).map(u64::from).collect();
    let many = Head { id: 77, scale: 30_000, a: 16_384, b: u64::from(u32::MAX), pairs: 250 };
    cases.write_slip("250-pairs", many, false, &pairs, 1752);
}

/// Form 2, whose head takes as many bytes.
fn wide(cases: &mut Cases) {
    let largest = Head { id: u64::MAX, scale: 1 << 63, a: 1 << 32, b: u64::MAX, pairs: 1 };
    cases.write_slip("form-2-exact", PAPER, true, &[1 << 32, 50, 900, 70], 16);
    cases.write_slip("form-2-one-short", PAPER, true, &[1 << 32, 50, 900, 70], 15);
    cases.write_slip("form-2-head-one-short", PAPER, true, &[], 6);
    cases.write_slip("form-2-largest-exact", largest, true, &[u64::MAX, u64::MAX], 57);
    cases.write_slip("form-2-largest-one-short", largest, true, &[u64::MAX, u64::MAX], 56);
}

pub fn cases(cases: &mut Cases) {
    wide(cases);
    numbers(cases);
    rooms(cases);
    heads(cases);
    slips(cases);
}
