//! Numbers by themselves, good and broken and cut short, and the reading place that moves past them.
use super::base::Cases;
use reference::slip::Number::{Broken, Good, Short};
use reference::slip::{writing, Cursor, Number, LIMIT};

/// A number at a place, none being read before it.
fn at(cases: &mut Cases, name: &str, bytes: &[u8], at: usize, meant: Number) {
    cases.number(name, bytes, Cursor { at, count: 0 }, meant);
}

fn broken(cases: &mut Cases) {
    at(cases, "padded-zero", &[0x80, 0x00], 0, Broken(0));
    at(cases, "padded-127", &[0xff, 0x80, 0x00], 0, Broken(0));
    at(cases, "padded-zero-of-five-bytes", &[0x80, 0x80, 0x80, 0x80, 0x00], 0, Broken(0));
    at(cases, "padded-number-in-the-middle", &[0x05, 0x80, 0x00, 0x07], 1, Broken(1));
    at(cases, "fifth-byte-16", &[0x80, 0x80, 0x80, 0x80, 0x10], 0, Broken(0));
    at(cases, "fifth-byte-15", &[0xff, 0xff, 0xff, 0xff, 0x0f], 0, Good(u128::from(u32::MAX), 5));
    at(cases, "fifth-byte-31", &[0xff, 0xff, 0xff, 0xff, 0x1f], 0, Broken(0));
    at(cases, "fifth-byte-127", &[0xff, 0xff, 0xff, 0xff, 0x7f], 0, Broken(0));
    at(cases, "top-bit-on-the-fifth-byte", &[0x80, 0x80, 0x80, 0x80, 0x80, 0x01], 0, Broken(0));
    at(cases, "top-bit-on-the-fifth-byte-in-the-middle", &[0x05, 0x80, 0x80, 0x80, 0x80, 0x80, 0x01], 1, Broken(1));
    at(cases, "five-top-bits-at-the-end", &[0x80; 5], 0, Broken(0));
    at(cases, "five-top-bits-at-the-end-not-at-0", &[0x05, 0xff, 0xff, 0xff, 0xff, 0xff], 1, Broken(1));
}

fn short(cases: &mut Cases) {
    at(cases, "four-top-bits-at-the-end", &[0x80; 4], 0, Short(4));
    at(cases, "four-top-bits-at-the-end-not-at-0", &[0x05, 0xff, 0xff, 0xff, 0xff], 1, Short(5));
    at(cases, "one-top-bit-at-the-end", &[0x05, 0x06, 0x80], 2, Short(3));
    at(cases, "at-the-end", &[0x7f], 1, Short(1));
    at(cases, "past-the-end", &[0x7f], 2, Short(1));
    at(cases, "far-past-the-end", &[0x7f], usize::MAX, Short(1));
    at(cases, "no-bytes", &[], 0, Short(0));
    at(cases, "past-no-bytes", &[], 1, Short(0));
}

fn good(cases: &mut Cases) {
    at(cases, "the-second-of-three", &[0x05, 0xd8, 0x04, 0x06], 1, Good(600, 3));
    at(cases, "inside-a-number", &[0xd8, 0x04], 1, Good(4, 2));
    at(cases, "zero", &[0x00], 0, Good(0, 1));
}

/// Each number of so many bytes at the ends, as it is written, and the first ones that are too large.
fn written(cases: &mut Cases) {
    for n in [0, 127, 128, 16383, 16384, (1 << 28) - 1, 1 << 28, LIMIT - 1] {
        let bytes = [&[0x05][..], &writing(n), &[0x06]].concat();
        at(cases, "as-it-is-written", &bytes, 1, Good(n, bytes.len() - 1));
    }
    for n in [LIMIT, LIMIT + 1, 1 << 35, 1 << 63, (1 << 64) - 1] {
        at(cases, &format!("{n}-as-it-is-written"), &[&[0x05][..], &writing(n), &[0x06]].concat(), 1, Broken(1));
    }
}

/// "The reading place moves past each number and counts the numbers read."
fn counted(cases: &mut Cases) {
    let bytes = [0xd8, 0x04, 0x18, 0xff, 0xff, 0xff, 0xff, 0x0f];
    let cursor = |at, count| Cursor { at, count };
    cases.number("counted-first", &bytes, cursor(0, 0), Good(600, 2));
    cases.number("counted-second", &bytes, cursor(2, 1), Good(24, 3));
    cases.number("counted-third", &bytes, cursor(3, 2), Good(u128::from(u32::MAX), 8));
    cases.number("counted-none-left", &bytes, cursor(8, 3), Short(8));
    cases.number("counted-up-to-the-largest", &bytes, cursor(2, u64::MAX - 1), Good(24, 3));
    cases.number("counted-no-further", &bytes, cursor(2, u64::MAX), Good(24, 3));
    cases.number("not-counted-past-the-end", &bytes, cursor(9, 7), Short(8));
    cases.number("not-counted-padded", &[0x18, 0x80, 0x00, 0x18], cursor(1, 7), Broken(1));
    cases.number("not-counted-cut-short", &[0x18, 0x80, 0x80], cursor(1, u64::MAX), Short(3));
}

pub fn cases(cases: &mut Cases) {
    good(cases);
    written(cases);
    broken(cases);
    short(cases);
    counted(cases);
}
