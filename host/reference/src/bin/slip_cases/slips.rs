//! Slips that are accepted, slips for which there is too little room, and slips that are malformed whatever the room.
use super::base::Cases;
use super::faults::{exchanged, PAPER};
use reference::slip::{writing, MALFORMED, NO_ROOM};

/// A slip whose numbers are the largest that there are: each but the form and the number of pairs has five bytes.
pub fn largest() -> Vec<u8> {
    let most = u32::MAX;
    [1, most, most, most - 1, most, 1, most, most].iter().flat_map(|n| writing(u128::from(*n))).collect()
}

/// The numbers of 300 pairs, in one to five bytes.
pub fn many_pairs() -> Vec<u32> {
    (0..300).flat_map(|i| [i * 14_316_557, i * 57]).collect()
}

fn many() -> Vec<u8> {
    let numbers = [&[1, 77, 30_000, 16_384, u32::MAX, 300][..], &many_pairs()].concat();
    numbers.iter().flat_map(|n| writing(u128::from(*n))).collect()
}

fn accepted(cases: &mut Cases) {
    cases.good("the-papers-slip", &PAPER, 4);
    cases.slip("room-one-short", &PAPER, 3, (NO_ROOM, 0));
    cases.good("room-one-long", &PAPER, 5);
    cases.slip("no-room", &PAPER, 0, (NO_ROOM, 0));
    cases.good("smallest-numbers", &[0x01, 0x01, 0x01, 0x00, 0x01, 0x01, 0x00, 0x00], 3);
    cases.good("largest-numbers", &largest(), 3);
    cases.good("one-pair", &exchanged(6..13, &[0x01, 0xcc, 0x08, 0x32]), 4);
    cases.good("pairs-that-repeat", &exchanged(7..13, &[0x05; 4]), 4);
}

fn three_hundred_pairs(cases: &mut Cases) {
    let slip = many();
    cases.good("300-pairs-room-one-long", &slip, 601);
    cases.good("300-pairs", &slip, 600);
    cases.slip("300-pairs-room-one-short", &slip, 599, (NO_ROOM, 0));
    cases.malformed("300-pairs-last-byte-missing", &slip[..slip.len() - 1], slip.len() - 1);
}

/// Malformed and too little room: 17 comes before 16.
fn both_refusals(cases: &mut Cases) {
    cases.slip("form-2-no-room", &exchanged(0..1, &[0x02]), 0, (MALFORMED, 0));
    cases.slip("last-length-padded-room-short", &exchanged(12..13, &[0xc6, 0x00]), 3, (MALFORMED, 12));
    cases.slip("half-a-pair-missing-room-short", &PAPER[..12], 3, (MALFORMED, 12));
    cases.slip("surplus-no-room", &[&PAPER[..], &[0x00]].concat(), 0, (MALFORMED, 13));
    cases.slip("1048577-pairs-room-short", &exchanged(6..7, &[0x81, 0x80, 0x40]), 3, (MALFORMED, 6));
}

pub fn cases(cases: &mut Cases) {
    accepted(cases);
    three_hundred_pairs(cases);
    both_refusals(cases);
}
