//! Atoms whose size is just wrong (refusal 2), or that are absent or occur too often (refusal 3).
use crate::film::*;
use crate::maker::dressing::{known, KINDS};
use crate::maker::places::{any, at, containers, known_atoms, places};
use crate::maker::random::Random;

/// Sizes that no atom has, or that this one has not.
fn wrong_size(random: &mut Random, node: &Node) -> Size {
    let long = u64::try_from(node.bytes().len()).unwrap();
    let short = u32::try_from(long).unwrap();
    let near = random.one(&[short + 1, short + 8, short - short.min(1), short - short.min(8)]);
    match random.below(4) {
        0 => Size::Says(random.one(&[0, 1, 2, 7, 8, 9, 15, 16, 1 << 31, u32::MAX])),
        1 => Size::Says(near),
        2 => Size::Wide,
        _ => Size::WideSays(random.one(&[
            0,
            8,
            15,
            16,
            long + 7,
            long + 8,
            long + 9,
            1 << 31,
            (1 << 32) + long + 8,
            1 << 63,
            u64::MAX,
        ])),
    }
}

/// Bytes at the end of the file that are no atom, or just one.
fn surplus(random: &mut Random) -> Vec<u8> {
    let mut bytes = vec![0; random.one(&[1, 4, 7, 8, 9, 12, 15, 16, 17])];
    if bytes.len() >= 8 {
        bytes[3] = random.one(&[0, 1, 1, 7, 8]);
        bytes[4..8].copy_from_slice(b"free");
    }
    if bytes.len() >= 16 {
        bytes[15] = random.one(&[15, 16, 17]);
    }
    bytes
}

/// One wrong size in a film, or surplus bytes in a container.
pub fn spoil_size(random: &mut Random, film: &mut Node) {
    match random.below(4) {
        0 => {
            let place = any(random, containers(film)).unwrap();
            at(film, &place).tail = surplus(random);
        }
        1 => film.tail = surplus(random),
        _ => {
            let list = if random.once_in(2) { places(film) } else { containers(film) };
            if let Some(place) = any(random, list).filter(|place| !place.is_empty()) {
                let node = at(film, &place);
                node.size = wrong_size(random, node);
            }
        }
    }
}

/// One atom that is absent, stands twice, has another type or another parent.
pub fn spoil_count(random: &mut Random, film: &mut Node) {
    let Some(place) = any(random, known_atoms(film)) else {
        return;
    };
    let (last, above) = place.split_last().unwrap();
    let node = at(film, &place).clone();
    let parent = at(film, above);
    match random.below(6) {
        0 | 1 => drop(parent.children.remove(*last)),
        2 => parent.children.insert(*last, node),
        // A container that was given another type has no such children.
        3 if !known(&parent.kind).is_empty() => {
            let kind = random.one(known(&parent.kind));
            parent.children.push(atom(kind, &[0; 8]));
        }
        4 => parent.children[*last].kind = random.one(&KINDS).as_bytes().try_into().unwrap(),
        _ => {
            let target = any(random, containers(film)).unwrap();
            at(film, &target).children.push(node);
        }
    }
}
