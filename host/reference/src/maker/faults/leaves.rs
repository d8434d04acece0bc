//! Read leaves and profiles of another version (refusal 4), or that haven't just their size (refusal 5).
use crate::film::*;
use crate::maker::places::{any, at, read_leaves};
use crate::maker::random::Random;

/// Counts of entries that a table of this size has not, or has only if the size is kept in 32 bits.
fn wrong_count(random: &mut Random, count: u32) -> u32 {
    let far = 1 << random.one(&[26, 28, 29, 30, 31]);
    random.one(&[count.wrapping_add(1), count.wrapping_sub(1), count ^ far, u32::MAX, 0])
}

fn number_at(node: &Node, offset: usize) -> u32 {
    u32::from_be_bytes(node.body[offset - 8..offset - 4].try_into().unwrap())
}

/// The size of the first entry in an stsd or dref, and sometimes so many bytes of it.
fn spoil_entry(random: &mut Random, node: &mut Node) {
    if node.body.len() < 24 {
        return;
    }
    let size =
        random.one(&[0, 8, 11, 12, 13, 15, 16, 17, 35, 36, 37, number_at(node, 16).wrapping_add(1), 1 << 31, u32::MAX]);
    node.set("", 16, size);
    if size < 100 && number_at(node, 12) == 1 {
        node.body.resize(8 + usize::try_from(size).unwrap(), 0);
    }
}

/// A common size with sizes, none without, or another count.
fn spoil_sizes(random: &mut Random, node: &mut Node) {
    if node.body.len() < 12 {
        return;
    }
    if random.once_in(2) {
        node.set("", 12, random.one(&[0, 1, u32::MAX]));
    } else {
        let count = number_at(node, 16);
        node.set("", 16, wrong_count(random, count));
    }
}

/// A body with some bytes more or fewer, or hardly any.
fn spoil_length(random: &mut Random, node: &mut Node) {
    let length = node.body.len();
    let some = random.one(&[1, 4, 8, 12, 16]);
    let few = random.one(&[0, 1, 3, 4, 7, 8, 11, 12]);
    let new = random.one(&[length + some, length.saturating_sub(some), few]);
    node.body.resize(new, 0);
    if new > 0 && random.once_in(5) {
        node.body[0] = random.one(&[0, 1, 255]);
    }
}

/// One leaf that is read, or a profile, with another version or another size.
pub fn spoil(random: &mut Random, film: &mut Node) {
    let Some(place) = any(random, read_leaves(film)) else {
        return;
    };
    let node = at(film, &place);
    match random.below(4) {
        0 if !node.body.is_empty() => node.body[0] = random.one(&[1, 2, 128, 255]),
        1 => spoil_length(random, node),
        _ => match &node.kind {
            b"stsd" | b"dref" if random.once_in(2) => spoil_entry(random, node),
            b"stsz" => spoil_sizes(random, node),
            b"tkhd" | b"mdhd" | b"mvhd" | b"hdlr" => spoil_length(random, node),
            _ if node.body.len() >= 8 => {
                let count = number_at(node, 12);
                node.set("", 12, wrong_count(random, count));
            }
            _ => spoil_length(random, node),
        },
    }
}
