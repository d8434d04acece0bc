//! Slips that are accepted, and slips that break each rule, or just don't.
use super::random::Random;
use crate::slip::{writing, MOST_PAIRS};

/// A number at an end of those that are written in so many bytes, or any.
fn number(random: &mut Random) -> u32 {
    let end = 1 << random.one(&[7, 14, 21, 28]);
    let any = random.number();
    random.one(&[0, 1, 127, end - 1, end, u32::MAX, any, any >> 16])
}

/// A number of form 2, at an end or any, and as often one that form 1 has too.
fn wide_number(random: &mut Random) -> u64 {
    let end = 1 << random.one(&[32, 35, 42, 49, 56, 63]);
    let (narrow, any) = (u64::from(number(random)), random.bits());
    random.one(&[narrow, narrow, narrow, end - 1, end, u64::MAX, any])
}

/// The numbers of a slip of form 2, the form first. It is accepted if one of them is great.
fn wide_numbers(random: &mut Random) -> Vec<u64> {
    let pairs = 1 + random.below(4);
    let (id, scale, b) = (wide_number(random).max(1), wide_number(random).max(1), wide_number(random).max(1));
    let a = random.bits() % b;
    let mut list = vec![2, id, scale, random.one(&[a, 0, b - 1]), b, u64::try_from(pairs).unwrap()];
    list.extend((0..2 * pairs).map(|_| wide_number(random)));
    list
}

/// The numbers of a slip that is accepted, the form first.
fn numbers(random: &mut Random) -> Vec<u64> {
    let pairs = if random.once_in(20) { 127 + random.below(3) } else { 1 + random.below(5) };
    let (id, scale) = (number(random).max(1), number(random).max(1));
    let b = number(random).max(1);
    let a = random.up_to(b - 1);
    let a = random.one(&[a, 0, b - 1]);
    let mut list = vec![1, u64::from(id), u64::from(scale), u64::from(a), u64::from(b)];
    list.push(u64::try_from(pairs).unwrap());
    list.extend((0..2 * pairs).map(|_| u64::from(number(random))));
    list
}

/// Breaks a rule of the numbers: the form, a zero ID or scale, b not above a, the number of pairs.
fn spoil_numbers(random: &mut Random, list: &mut Vec<u64>) {
    let most = u64::try_from(MOST_PAIRS).unwrap();
    match random.below(8) {
        0 => list[0] = random.one(&[0, 2, 127, 129, 1 << 31]),
        1 => list[1] = 0,
        2 => list[2] = 0,
        3 => list[3] = random.one(&[list[4], list[4].saturating_add(1)]),
        4 => list[4] = random.one(&[0, list[3], list[3] + 1]),
        5 => list[5] = random.one(&[0, list[5] + 1, list[5] - 1, most, most + 1, list[5] + (1 << 31), (1 << 32) - 1]),
        6 => list.truncate(random.below(list.len())),
        _ => {
            list[5] = 0;
            list.truncate(6 + random.one(&[0, 2]));
        }
    }
}

/// A number that is not written as it should be: with a group too many, or not below 2^32; in form 2 that may be right.
fn wrong_writing(random: &mut Random, n: u64) -> Vec<u8> {
    let mut bytes = writing(u128::from(n));
    match random.below(4) {
        0 => {
            *bytes.last_mut().unwrap() |= 128;
            bytes.extend(vec![128; random.one(&[0, 0, 1, 3, 5])]);
            bytes.push(0);
        }
        1 => {
            let above = n.saturating_add(1 << 32);
            bytes = writing(u128::from(random.one(&[1 << 32, (1 << 32) + 1, above, (1 << 35) - 1, 1 << 35])));
        }
        2 => bytes = vec![random.one(&[128, 255, 129]); random.one(&[4, 5, 6, 10])],
        _ => bytes = writing(u128::from(random.one(&[1 << 42, 1 << 63, u64::MAX])) << random.one(&[0, 1, 40])),
    }
    bytes
}

/// A slip: as it should be, with wrong numbers, with a number wrongly written, cut short, with surplus bytes, or any bytes.
pub fn slip(random: &mut Random) -> Vec<u8> {
    slip_with(random, numbers)
}

/// The same in form 2.
pub fn wide_slip(random: &mut Random) -> Vec<u8> {
    slip_with(random, wide_numbers)
}

fn slip_with(random: &mut Random, numbers: fn(&mut Random) -> Vec<u64>) -> Vec<u8> {
    let which = random.below(10);
    let mut list = numbers(random);
    if which == 0 || which == 1 {
        spoil_numbers(random, &mut list);
    }
    let wrong = random.below(list.len().max(1));
    let mut bytes = Vec::new();
    for (i, n) in list.iter().enumerate() {
        bytes.extend(if which == 2 && i == wrong { wrong_writing(random, *n) } else { writing(u128::from(*n)) });
    }
    let length = bytes.len();
    match which {
        3 => bytes.truncate(random.below(length + 1)),
        4 => bytes.extend(vec![random.one(&[0, 1, 128, 255]); 1 + random.below(3)]),
        5 if length > 0 => bytes[random.below(length)] ^= 1 << random.below(8),
        6 if random.once_in(2) => {
            let length = random.below(30);
            bytes = random.bytes(length);
        }
        _ => (),
    }
    bytes
}

/// A slip as it comes back from whoever copied it: a byte lost, put in twice or changed, two exchanged, the end lost, or some more at the end.
pub fn damaged(random: &mut Random, slip: &[u8]) -> Vec<u8> {
    let mut bytes = slip.to_vec();
    if bytes.is_empty() {
        return vec![random.byte()];
    }
    let at = random.below(bytes.len());
    match random.below(8) {
        0 => drop(bytes.remove(at)),
        1 => bytes.insert(at, bytes[at]),
        2 => bytes[at] = random.byte(),
        3 => bytes[at] ^= 1 << random.below(8),
        4 => bytes[at] ^= 128,
        5 => {
            let other = random.below(bytes.len());
            bytes.swap(at, other);
        }
        6 => bytes.truncate(at),
        _ => {
            let more = 1 + random.below(6);
            bytes.extend(random.bytes(more));
        }
    }
    bytes
}

/// A slip of so many pairs, all there.
pub fn slip_of(random: &mut Random, pairs: u32) -> Vec<u8> {
    let mut bytes: Vec<u8> = [1, 1, 600, 0, 1, pairs].iter().flat_map(|n| writing(u128::from(*n))).collect();
    for _ in 0..2 * pairs {
        bytes.extend(writing(u128::from(number(random))));
    }
    bytes
}
