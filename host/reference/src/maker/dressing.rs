//! What a film may have beside its tables and no rule looks at: atoms that are skipped, fields that are not read, any order of the children.
use super::movies::records;
use super::random::Random;
use crate::film::*;

/// The containers, the file among them, and which of their children are counted or walked.
const KNOWN: [(&str, &[&str]); 8] = [
    ("file", &["moov"]),
    ("moov", &["mvhd", "trak"]),
    ("trak", &["tkhd", "mdia", "edts"]),
    ("edts", &["elst"]),
    ("mdia", &["mdhd", "hdlr", "minf"]),
    ("minf", &["stbl", "dinf"]),
    ("dinf", &["dref"]),
    ("stbl", &["stsd", "stts", "stsc", "stsz", "stco", "ctts", "stss"]),
];

/// Types of atoms: those that a rule names, those that QuickTime has besides, and some that differ from them in a letter.
pub const KINDS: [&str; 33] = [
    "moov", "mvhd", "trak", "tkhd", "edts", "elst", "mdia", "mdhd", "hdlr", "minf", "stbl", "stsd", "stts", "ctts",
    "stsc", "stsz", "stco", "stss", "prfl", "file", "free", "skip", "wide", "udta", "cmov", "rmra", "mdat", "MOOV",
    "Trak", "co64", "dinf", "dref", "\0\0\0\0",
];

/// The children of an atom that a rule counts or that are walked, none of a leaf.
pub fn known(parent: &[u8; 4]) -> &'static [&'static str] {
    KNOWN.iter().find(|(name, _)| name.as_bytes() == parent).map_or(&[], |(_, children)| children)
}

/// A type that no rule looks at in that parent. The first 'prfl' of a movie or track is looked at, so there it is left to `add_profile`.
fn skipped_kind(random: &mut Random, parent: &[u8; 4]) -> &'static str {
    loop {
        let kind = random.one(&KINDS);
        let may_be_profile = kind == "prfl" && (parent == b"moov" || parent == b"trak");
        if !known(parent).contains(&kind) && !may_be_profile {
            return kind;
        }
    }
}

/// A body that is nothing, an atom, or any bytes.
fn any_body(random: &mut Random) -> Vec<u8> {
    match random.below(4) {
        0 => Vec::new(),
        1 => {
            let kind = random.one(&KINDS);
            atom(kind, &[1; 3]).bytes()
        }
        _ => {
            let length = random.below(40);
            random.bytes(length)
        }
    }
}

pub fn skipped(random: &mut Random, parent: &[u8; 4]) -> Node {
    let kind = skipped_kind(random, parent);
    atom(kind, &any_body(random))
}

/// Numbers in the fields that are not read, but for the version.
fn noise(random: &mut Random, node: &mut Node, kept: std::ops::Range<usize>) {
    for place in (9..8 + node.body.len()).filter(|place| !kept.contains(place)) {
        node.body[place - 8] = random.byte();
    }
}

fn fill_unread(random: &mut Random, node: &mut Node) {
    match &node.kind {
        b"mvhd" => noise(random, node, 20..28),
        b"tkhd" => noise(random, node, 20..24),
        b"mdhd" => noise(random, node, 20..28),
        b"hdlr" => {
            let more = random.one(&[0, 0, 1, 12, 300]);
            node.body.resize(node.body.len() + more, 0);
            noise(random, node, 16..20);
        }
        b"elst" | b"stts" | b"ctts" | b"stsc" | b"stsz" | b"stco" | b"stss" | b"stsd" | b"dref" => {
            let flags = random.bytes(3);
            node.body[1..4].copy_from_slice(&flags);
        }
        _ => (),
    }
}

/// A 'prfl' that may stand anywhere: with records, or of another version and with any body.
fn right_profile(random: &mut Random) -> Node {
    if random.once_in(2) {
        return prfl(&records(random));
    }
    let mut body = any_body(random);
    body.insert(0, 1 + random.byte() % 255);
    atom("prfl", &body)
}

/// One more 'prfl': before the header it may be the first, which is looked at; after the header, or after the first, it may have any body.
fn add_profile(random: &mut Random, node: &mut Node, header: &[u8; 4]) {
    let header = node.children.iter().position(|child| child.kind == *header).unwrap();
    let is_second = node.children[..header].iter().any(|child| child.kind == *b"prfl");
    let (place, new) = match random.below(3) {
        0 => (header + 1, atom("prfl", &any_body(random))),
        1 if is_second => (header, atom("prfl", &any_body(random))),
        _ => (random.below(header + 1), right_profile(random)),
    };
    node.children.insert(place, new);
}

/// Any order of the children but that the tracks stay in theirs, by which their chunks are found later.
fn reorder(random: &mut Random, children: &mut Vec<Node>) {
    let mut places: Vec<usize> = (0..children.len()).collect();
    random.shuffle(&mut places);
    let is_track = |place: &usize| children[*place].kind == *b"trak";
    let mut tracks = (0..children.len()).filter(is_track);
    let order: Vec<usize> =
        places.iter().map(|place| if is_track(place) { tracks.next().unwrap() } else { *place }).collect();
    *children = order.iter().map(|place| children[*place].clone()).collect();
}

/// Dresses a container and all in it. A film is dressed before its chunks have offsets, since it grows.
pub fn dress(random: &mut Random, node: &mut Node) {
    fill_unread(random, node);
    if known(&node.kind).is_empty() {
        return;
    }
    for child in &mut node.children {
        dress(random, child);
    }
    if random.once_in(3) {
        reorder(random, &mut node.children);
    }
    match &node.kind {
        b"moov" if random.once_in(8) => add_profile(random, node, b"mvhd"),
        b"trak" if random.once_in(8) => add_profile(random, node, b"tkhd"),
        _ => (),
    }
    for _ in 0..random.one(&[0, 0, 0, 1, 2]) {
        let place = random.below(node.children.len() + 1);
        let new = skipped(random, &node.kind);
        node.children.insert(place, new);
    }
}
