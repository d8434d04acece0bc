//! The film of two hoses: one video track a hose, alike but for their IDs and for where their bytes lie. In both places a picture is 16 bytes of
//! text that say whose it is, so that bytes taken from the wrong hose are seen at once.
use crate::film::*;

/// The pictures of each hose, in chunks of two.
const PICTURES: usize = 6;
const IN_A_CHUNK: usize = 2;

/// Six pictures, 25 a second.
const SCALE: u32 = 600;
const EACH: u32 = 24;

/// The name in both handlers: a length, and as many bytes.
const NAME: &[u8] = b"\x0bHose camera";

/// A picture of a hose, both counted from 1.
fn picture_bytes(hose: usize, number: usize) -> Vec<u8> {
    format!("hose {hose} picture {number}").into_bytes()
}

/// The chunks in the order in which they lie in the mdat: for each hose in turn the next pictures.
fn chunks() -> Vec<(usize, Vec<u8>)> {
    let mut chunks = Vec::new();
    for first in (1..=PICTURES).step_by(IN_A_CHUNK) {
        for hose in [1, 2] {
            let pictures = (first..first + IN_A_CHUNK).flat_map(|number| picture_bytes(hose, number));
            chunks.push((hose, pictures.collect()));
        }
    }
    chunks
}

/// Where the chunks of a hose begin, with the mdat's body at that place.
fn offsets(hose: usize, body: usize) -> Vec<u32> {
    let mut at = body;
    let mut list = Vec::new();
    for (whose, bytes) in chunks() {
        if whose == hose {
            list.push(u32::try_from(at).unwrap());
        }
        at += bytes.len();
    }
    list
}

/// A description of 86 bytes, as QuickTime writes it: the data reference, 72 points an inch, a picture a sample, 24 bits a point, no colour table.
fn described(width: u16, height: u16) -> Vec<u8> {
    let mut bytes = description(b"jpeg", 86);
    bytes[..36].copy_from_slice(&[&86u32.to_be_bytes()[..], &picture(width, height)[4..]].concat());
    for (at, n) in [(14, 1), (36, 72), (40, 72), (48, 1), (82, 24), (84, 0xffff)] {
        bytes[at..at + 2].copy_from_slice(&u16::to_be_bytes(n));
    }
    bytes
}

/// 1.0, and the last number of a matrix that changes nothing.
const ONE: u32 = 1 << 16;
const LAST: u32 = 1 << 30;

/// Numbers at offsets from an atom's first byte.
fn set(node: &mut Node, path: &str, numbers: &[(usize, u32)]) {
    for (offset, n) in numbers {
        node.set(path, *offset, *n);
    }
}

fn trak(hose: usize, body: usize) -> Node {
    let count = u32::try_from(PICTURES).unwrap();
    let samples = u32::try_from(IN_A_CHUNK).unwrap();
    let track = Track {
        id: u32::try_from(hose).unwrap(),
        subtype: *b"vide",
        scale: SCALE,
        duration: count * EACH,
        descriptions: vec![described(320, 240)],
        references: vec![this_file()],
        stts: vec![(count, EACH)],
        ctts: None,
        stsc: vec![(1, samples, 1)],
        stsz: Sizes::Common(16, count),
        stco: offsets(hose, body),
        stss: None,
        edits: None,
        profile: None,
    };
    let mut trak = track.trak();
    // Enabled, in the movie, its duration, the matrix, and the picture's size in points.
    let sizes = [(84, 320 * ONE), (88, 240 * ONE)];
    set(&mut trak, "tkhd", &[(8, 0xf), (28, count * EACH), (48, ONE), (64, ONE), (80, LAST)]);
    set(&mut trak, "tkhd", &sizes);
    trak.at("mdia hdlr").body.extend(NAME);
    // What players ask for and no rule looks at: the media's own header.
    trak.at("mdia minf").children.insert(0, atom("vmhd", &[0, 0, 0, 1, 0, 0, 0, 0, 0, 0, 0, 0]));
    trak
}

fn moov(body: usize) -> Node {
    let duration = u32::try_from(PICTURES).unwrap() * EACH;
    let mut header = mvhd(SCALE, duration);
    // The rate, the volume, the matrix, and the ID that a next track would have.
    set(&mut header, "", &[(28, ONE), (32, 1 << 24), (44, ONE), (60, ONE), (76, LAST), (104, 3)]);
    container("moov", vec![header, trak(1, body), trak(2, body)])
}

/// The whole film.
pub fn two_hoses() -> Node {
    let ftyp = atom("ftyp", b"qt  \0\0\0\0qt  ");
    // The moov is as long wherever the mdat begins.
    let body = ftyp.bytes().len() + moov(0).bytes().len() + 8;
    let pictures: Vec<u8> = chunks().into_iter().flat_map(|(_, bytes)| bytes).collect();
    file(vec![ftyp, moov(body), atom("mdat", &pictures)])
}
