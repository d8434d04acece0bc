//! Slips of form 2, and of form 1 by both readers; numbers below 2^64.
use super::base::Cases;
use super::faults::{exchanged, PAPER};
use reference::slip::Number::{Broken, Good, Short};
use reference::slip::{writing, Cursor, Number, FORM_2, MALFORMED, NO_ROOM};

/// A slip of form 2: track 1, scale 600, 24 to 73, and one pair of that offset and that length, each as it stands.
fn with_pair(offset: &[u8], length: &[u8]) -> Vec<u8> {
    [&[0x02, 0x01, 0xd8, 0x04, 0x18, 0x49, 0x01][..], offset, length].concat()
}

fn malformed(cases: &mut Cases, name: &str, bytes: &[u8], place: usize) {
    cases.any_slip(name, bytes, 4, (MALFORMED, place));
}

/// Offsets at each count of bytes that form 1 has not, and the length, the ID, the scale, a and b.
fn accepted(cases: &mut Cases) {
    for bytes in 5..=10 {
        let least = if bytes == 5 { 1 << 32 } else { 1_u128 << (7 * (bytes - 1)) };
        let most = if bytes == 10 { (1 << 64) - 1 } else { (1_u128 << (7 * bytes)) - 1 };
        for n in [least, most] {
            cases.any_slip(&format!("offset-{n}"), &with_pair(&writing(n), &[0x32]), 3, (0, 0));
        }
    }
    cases.any_slip("length-2-32", &with_pair(&[0x05], &writing(1 << 32)), 2, (0, 0));
    let most = (1 << 64) - 1;
    let largest: Vec<u8> = [2, most, most, most - 1, most, 1, most, most].into_iter().flat_map(writing).collect();
    cases.any_slip("largest-numbers", &largest, 2, (0, 0));
    for (i, name) in [(1, "id"), (2, "scale"), (4, "b")] {
        let mut numbers = [2, 1, 600, 24, 73, 1, 5, 6];
        numbers[i] = 1 << 32;
        let slip: Vec<u8> = numbers.into_iter().flat_map(writing).collect();
        cases.any_slip(&format!("{name}-2-32"), &slip, 2, (0, 0));
    }
    let wide = with_pair(&writing(1 << 32), &[0x32]);
    cases.any_slip("room-one-short", &wide, 1, (NO_ROOM, 0));
    cases.any_slip("room-one-long", &wide, 3, (0, 0));
    cases.slip("by-the-old-reader", &wide, 2, (MALFORMED, 0));
}

/// "malformed at place 0, if no other rule is broken"
fn small(cases: &mut Cases) {
    let small = exchanged(0..1, &[0x02]);
    malformed(cases, "small-numbers", &small, 0);
    cases.any_slip("small-numbers-no-room", &small, 0, (MALFORMED, 0));
    malformed(cases, "offset-2-32-less-one", &with_pair(&writing((1 << 32) - 1), &[0x32]), 0);
    malformed(cases, "small-numbers-and-surplus", &[&small[..], &[0x00]].concat(), 13);
    malformed(cases, "small-numbers-that-end", &small[..12], 12);
    malformed(cases, "small-numbers-and-id-0", &exchanged(0..2, &[0x02, 0x00]), 1);
    malformed(cases, "small-numbers-and-b-is-a", &[0x02, 0x01, 0x01, 0x18, 0x18, 0x01, 0x05, 0x06], 4);
    malformed(cases, "small-numbers-and-a-length-padded", &with_pair(&[0x05], &[0xb2, 0x00]), 8);
}

/// Numbers that are not so written, and rules that are broken.
fn faults(cases: &mut Cases) {
    let nine = [0x80; 9];
    malformed(cases, "tenth-byte-2", &with_pair(&[&nine[..], &[0x02]].concat(), &[0x32]), 7);
    malformed(cases, "tenth-byte-0", &with_pair(&[&nine[..], &[0x00]].concat(), &[0x32]), 7);
    malformed(cases, "top-bit-on-the-tenth-byte", &with_pair(&[&nine[..], &[0x81, 0x01]].concat(), &[0x32]), 7);
    malformed(cases, "ten-top-bits-at-the-end", &with_pair(&[0xff; 10], &[]), 7);
    malformed(cases, "nine-top-bits-at-the-end", &with_pair(&[0xff; 9], &[]), 16);
    malformed(cases, "offset-2-32-padded", &with_pair(&[0x80, 0x80, 0x80, 0x80, 0x90, 0x00], &[0x32]), 7);
    malformed(cases, "form-padded", &exchanged(0..1, &[0x82, 0x00]), 0);
    malformed(cases, "form-3", &exchanged(0..1, &[0x03]), 0);
    malformed(cases, "form-2-32", &exchanged(0..1, &[0x80, 0x80, 0x80, 0x80, 0x10]), 0);
    malformed(cases, "form-of-five-top-bits-at-the-end", &[0x80; 5], 0);
    malformed(cases, "form-of-four-top-bits-at-the-end", &[0x80; 4], 4);
    malformed(cases, "form-alone", &[0x02], 1);
    malformed(cases, "no-bytes", &[], 0);
    let numbers = |list: [u128; 8]| -> Vec<u8> { list.into_iter().flat_map(writing).collect() };
    malformed(cases, "a-2-32-and-b-as-it-was", &numbers([2, 1, 600, 1 << 32, 73, 1, 5, 6]), 9);
    malformed(cases, "b-is-a-2-32", &numbers([2, 1, 600, 1 << 32, 1 << 32, 1, 5, 6]), 9);
    malformed(cases, "2-32-pairs", &numbers([2, 1, 600, 24, 73, 1 << 32, 5, 6]), 6);
    malformed(cases, "1048577-pairs", &numbers([2, 1, 600, 24, 73, 1_048_577, 1 << 32, 6]), 6);
    malformed(cases, "offset-2-32-and-surplus", &[&with_pair(&writing(1 << 32), &[0x32])[..], &[0x07]].concat(), 13);
}

/// "The new reader gives for a form 1 slip what the old one gave"
fn form_1(cases: &mut Cases) {
    cases.any_slip("form-1", &PAPER, 4, (0, 0));
    cases.any_slip("form-1-room-one-long", &PAPER, 5, (0, 0));
    cases.any_slip("form-1-room-one-short", &PAPER, 3, (NO_ROOM, 0));
    malformed(cases, "form-1-offset-2-32", &exchanged(7..9, &writing(1 << 32)), 7);
    malformed(cases, "form-1-five-top-bits-at-the-end", &[&PAPER[..7], &[0x80; 5]].concat(), 7);
    malformed(cases, "form-1-that-ends", &PAPER[..12], 12);
    malformed(cases, "form-1-and-surplus", &[&PAPER[..], &[0x00]].concat(), 13);
}

fn numbers(cases: &mut Cases) {
    let mut at = |name: &str, bytes: &[u8], meant: Number| {
        cases.number_of(FORM_2, name, bytes, Cursor { at: 1, count: 7 }, meant);
    };
    for n in [0, (1 << 32) - 1, 1 << 32, (1 << 35) - 1, 1 << 35, 1 << 63, (1 << 64) - 1] {
        let bytes = [&[0x05][..], &writing(n), &[0x06]].concat();
        at("as-it-is-written", &bytes, Good(n, bytes.len() - 1));
    }
    at("2-64", &[&[0x05][..], &writing(1 << 64), &[0x06]].concat(), Broken(1));
    at("padded", &[0x05, 0x85, 0x00], Broken(1));
    at("ten-top-bits-at-the-end", &[0xff; 11], Broken(1));
    at("nine-top-bits-at-the-end", &[0xff; 10], Short(10));
    at("at-the-end", &[0x05], Short(1));
}

pub fn cases(cases: &mut Cases) {
    accepted(cases);
    small(cases);
    faults(cases);
    form_1(cases);
    numbers(cases);
}
