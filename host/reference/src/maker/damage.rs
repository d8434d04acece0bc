//! Damage that knows no rule: atoms moved, copied, renamed and resized at random, bytes changed, films cut short.
use super::dressing::KINDS;
use super::places::{any, at, places};
use super::random::Random;
use crate::film::*;

const NUMBERS: [u32; 16] = [0, 1, 2, 3, 4, 5, 8, 16, 35, 36, 256, 257, 1 << 28, 1 << 30, 1 << 31, u32::MAX];

/// Sizes near the true one, and far from it.
fn size(random: &mut Random, node: &Node) -> Size {
    let long = u64::try_from(node.bytes().len()).unwrap();
    let short = u32::try_from(long).unwrap();
    match random.below(6) {
        0 => Size::Wide,
        1 => Size::Says(random.one(&NUMBERS)),
        2 => Size::Says(short + 1),
        3 => Size::Says(short.saturating_sub(random.one(&[1, 8, 16]))),
        4 => Size::WideSays(random.one(&[0, 15, 16, long + 8, long + 9, 1 << 63, u64::MAX])),
        _ => Size::Says(0),
    }
}

fn damage_body(random: &mut Random, node: &mut Node) {
    let length = node.body.len();
    match random.below(4) {
        0 => node.body.resize(random.one(&[0, 1, 4, 7, 8, 12, length, length + 1, length.max(1) - 1]), 0),
        1 if length > 0 => node.body[0] = random.one(&[1, 128, 255]),
        _ if length >= 12 => {
            let anywhere = 8 + random.below(length - 3);
            let offset = random.one(&[12, 12, 12, 16, anywhere]);
            node.set("", offset, random.one(&NUMBERS));
        }
        _ => (),
    }
}

/// Damages a film in one place.
pub fn damage(random: &mut Random, film: &mut Node) {
    let all = places(film);
    let Some(place) = any(random, all.clone()) else {
        return;
    };
    let (last, above) = place.split_last().unwrap();
    let kind = random.one(&KINDS);
    let node = at(film, &place).clone();
    match random.below(12) {
        0 => drop(at(film, above).children.remove(*last)),
        1 => at(film, above).children.insert(*last, node),
        2 => at(film, &place).kind = kind.as_bytes().try_into().unwrap(),
        3 => at(film, &place).size = size(random, &node),
        4 => at(film, &place).tail = vec![0; random.one(&[1, 4, 7, 8, 9, 16])],
        5 => {
            let body = vec![random.one(&[0, 0, 1]); random.one(&[0, 1, 4, 7, 8, 24])];
            at(film, above).children.insert(*last, atom(kind, &body));
        }
        6 => {
            let target = any(random, all).unwrap();
            at(film, &target).children.push(node);
        }
        7 => at(film, above).children.swap(*last, 0),
        _ => damage_body(random, at(film, &place)),
    }
}

/// Changes some bytes, or cuts the film short.
pub fn damage_bytes(random: &mut Random, bytes: &mut Vec<u8>) {
    if bytes.is_empty() {
        return;
    }
    if random.once_in(3) {
        bytes.truncate(random.below(bytes.len() + 1));
        return;
    }
    for _ in 0..random.one(&[1, 1, 2, 5]) {
        let place = random.below(bytes.len());
        bytes[place] = random.one(&[0, 1, 2, 8, 16, 128, 255, bytes[place] ^ 1, bytes[place].wrapping_add(1)]);
    }
}
