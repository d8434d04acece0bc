//! "The atom tree": atoms cut out of the file, and the leaves that are read, by name.

use super::fault::many;
use std::fmt;

/// An atom. A container has its children and no body of its own, a leaf has its body, which stays in the file, and no children.
#[derive(Clone, Debug)]
pub struct Atom<'f> {
    pub place: Place,
    pub body: &'f [u8],
    pub children: Vec<Atom<'f>>,
}

/// The type of an atom, and where in the file its first byte is.
#[derive(Clone, Copy, Debug, PartialEq)]
pub struct Place {
    pub kind: [u8; 4],
    pub at: usize,
}

/// A type that has other than printable characters, which could act on a terminal, is in hex.
impl fmt::Display for Place {
    fn fmt(&self, f: &mut fmt::Formatter<'_>) -> fmt::Result {
        let Place { kind, at } = self;
        match std::str::from_utf8(kind) {
            _ if self == TOP => f.write_str("the file"),
            Ok(name) if kind.iter().all(u8::is_ascii_graphic) => write!(f, "{name} at byte {at}"),
            _ => write!(f, "0x{:08X} at byte {at}", u32::from_be_bytes(*kind)),
        }
    }
}

/// The big-endian number of so many bytes at a place. "All numbers are big-endian."
pub fn big_endian(bytes: &[u8], at: usize, width: usize) -> u64 {
    let mut n = 0;
    for byte in &bytes[at..at + width] {
        n = n * 256 + u64::from(*byte);
    }
    n
}

/// "Containers, each only in the parent shown: moov in the file; trak in moov; edts and mdia in trak; minf in mdia; stbl in minf." Document 02: "one 'dinf'
/// container in minf"
fn is_container(parent: &[u8; 4], kind: &[u8; 4]) -> bool {
    let shown: [(&[u8; 4], &[u8; 4]); 7] = [
        (FILE, b"moov"),
        (b"moov", b"trak"),
        (b"trak", b"edts"),
        (b"trak", b"mdia"),
        (b"mdia", b"minf"),
        (b"minf", b"stbl"),
        (b"minf", b"dinf"),
    ];
    shown.contains(&(parent, kind))
}

/// The parent of the atoms at top level. It is no container's type, so no atom is taken for it.
const FILE: &[u8; 4] = b"file";

/// The file itself, in place of an atom.
pub const TOP: &Place = &Place { kind: *FILE, at: usize::MAX };

/// The place of the atom at these of its parent's bytes, which begin in the file at `begin`.
fn place(begin: usize, bytes: &[u8], at: usize) -> Place {
    Place { kind: bytes[at + 4..at + 8].try_into().unwrap(), at: begin + at }
}

/// How many bytes the header of that atom has, and how many the whole; or what is wrong with them.
fn extent(parent: &Place, begin: usize, bytes: &[u8], at: usize) -> Result<(usize, usize), String> {
    let remaining = bytes.len() - at;
    // "1 to 7 bytes ... remain"
    if remaining < 8 {
        let left = many(u64::try_from(remaining).unwrap(), "byte", "bytes");
        return Err(format!("{parent} has {left} left at byte {}, and an atom has at least 8", begin + at));
    }
    let place = place(begin, bytes, at);
    let (header, size) = match big_endian(bytes, at, 4) {
        // "(under 16 for a 64-bit size) remain"
        1 if parent == TOP && remaining < 16 => {
            return Err(format!("{place} has a 64-bit size and so at least 16 bytes, {parent} ends after {remaining}"));
        }
        // "At top level only, size 1 means that a 64-bit size follows the type (header 16 bytes, size at least 16)"
        1 if parent == TOP => (16, big_endian(bytes, at + 8, 8)),
        // "and size 0 means up to the end of the file"
        0 if parent == TOP => (8, u64::try_from(remaining).unwrap()),
        size => (8, size),
    };
    // "an atom's size is wrong"; "Otherwise the size is at least 8."
    if size < u64::try_from(header).unwrap() {
        return Err(format!("{place} says {size} bytes, and must say at least {header}"));
    }
    // "passes its parent's end"
    if size > u64::try_from(remaining).unwrap() {
        return Err(format!("{place} says {size} bytes, {parent} ends after {remaining}"));
    }
    Ok((header, usize::try_from(size).unwrap()))
}

/// The atoms that fill their parent's bytes exactly, of which the first is at `begin` in the file; or why the file is refused 2.
fn atoms<'f>(parent: &Place, begin: usize, bytes: &'f [u8]) -> Result<Vec<Atom<'f>>, String> {
    let mut found = Vec::new();
    let mut at = 0;
    while at < bytes.len() {
        let (header, size) = extent(parent, begin, bytes, at)?;
        let place = place(begin, bytes, at);
        let body = &bytes[at + header..at + size];
        // "Every other atom is a leaf, even a container's type in the wrong place."
        found.push(if is_container(&parent.kind, &place.kind) {
            Atom { place, body: &[], children: atoms(&place, place.at + header, body)? }
        } else {
            Atom { place, body, children: Vec::new() }
        });
        at += size;
    }
    Ok(found)
}

/// The atoms of a file, or why it is refused 2.
pub fn tree(file: &[u8]) -> Result<Vec<Atom<'_>>, String> {
    atoms(TOP, 0, file)
}

/// Shows each atom after its parent, with its size (0 if that is wrong), as far as sizes lead from one to the next. Nothing is kept.
pub fn visit(parent: &Place, begin: usize, bytes: &[u8], see: &mut dyn FnMut(&Place, &Place, usize)) {
    let mut at = 0;
    while at + 8 <= bytes.len() {
        let place = place(begin, bytes, at);
        let Ok((header, size)) = extent(parent, begin, bytes, at) else {
            return see(parent, &place, 0);
        };
        see(parent, &place, size);
        if is_container(&parent.kind, &place.kind) {
            visit(&place, place.at + header, &bytes[at + header..at + size], see);
        }
        at += size;
    }
}

/// The atoms of a type, in order.
pub fn of_kind<'a, 'f>(atoms: &'a [Atom<'f>], kind: &[u8; 4]) -> Vec<&'a Atom<'f>> {
    atoms.iter().filter(|atom| atom.place.kind == *kind).collect()
}

/// A leaf that is read, or a profile. Its header has 8 bytes, since it is never at top level.
#[derive(Clone, Debug)]
pub struct Leaf {
    pub place: Place,
    pub body: Vec<u8>,
}

impl Leaf {
    /// The whole size of the atom.
    pub fn size(&self) -> u64 {
        8 + u64::try_from(self.body.len()).unwrap()
    }

    /// The number of so many bytes at a place. "Offsets count from the atom's first byte".
    pub fn number_of(&self, width: usize, at: usize) -> u64 {
        big_endian(&self.body, at - 8, width)
    }

    /// The number of 32 bits at a place.
    pub fn number(&self, at: usize) -> u64 {
        self.number_of(4, at)
    }

    /// The same bits as a signed number.
    pub fn signed(&self, at: usize) -> i64 {
        let n = i64::try_from(self.number(at)).unwrap();
        if n < 1 << 31 {
            n
        } else {
            n - (1 << 32)
        }
    }

    /// The number of 16 bits at a place.
    pub fn short(&self, at: usize) -> u64 {
        self.number_of(2, at)
    }
}

/// The leaves of a track. The profile is any version's.
#[derive(Clone, Debug)]
pub struct TrackLeaves {
    pub prfl: Option<Leaf>,
    pub tkhd: Leaf,
    pub elst: Option<Leaf>,
    pub mdhd: Leaf,
    pub hdlr: Leaf,
    pub dref: Leaf,
    pub stsd: Leaf,
    pub stts: Leaf,
    pub ctts: Option<Leaf>,
    pub stsc: Leaf,
    pub stsz: Leaf,
    /// stco, or the co64 in its place.
    pub chunk_offsets: Leaf,
    pub stss: Option<Leaf>,
}

impl TrackLeaves {
    /// The read leaves.
    pub fn read(&self) -> Vec<&Leaf> {
        let TrackLeaves { prfl: _, tkhd, elst, mdhd, hdlr, dref, stsd, stts, ctts, stsc, stsz, chunk_offsets, stss } =
            self;
        let mut all = vec![tkhd, mdhd, hdlr, dref, stsd, stts, stsc, stsz, chunk_offsets];
        for optional in [elst, ctts, stss] {
            all.extend(optional);
        }
        all
    }
}

/// The leaves of a movie, the tracks in file order. The profile is any version's.
#[derive(Clone, Debug)]
pub struct MovieLeaves {
    pub moov: Place,
    pub prfl: Option<Leaf>,
    pub mvhd: Leaf,
    pub tracks: Vec<TrackLeaves>,
}

/// The one child of that type, or nothing where there is not exactly one.
fn one<'a, 'f>(parent: &'a Atom<'f>, kind: &[u8; 4]) -> Option<&'a Atom<'f>> {
    match of_kind(&parent.children, kind)[..] {
        [atom] => Some(atom),
        _ => None,
    }
}

fn leaf(atom: &Atom) -> Leaf {
    Leaf { place: atom.place, body: atom.body.to_vec() }
}

/// "the first 'prfl' child before its mvhd (tkhd); any other is skipped"
fn profile(parent: &Atom, header: &[u8; 4]) -> Option<Leaf> {
    for child in &parent.children {
        if child.place.kind == *header {
            return None;
        }
        if child.place.kind == *b"prfl" {
            return Some(leaf(child));
        }
    }
    None
}

fn track(trak: &Atom) -> Option<TrackLeaves> {
    let mdia = one(trak, b"mdia")?;
    let minf = one(mdia, b"minf")?;
    let stbl = one(minf, b"stbl")?;
    let elst = match one(trak, b"edts") {
        Some(edts) => Some(leaf(one(edts, b"elst")?)),
        None => None,
    };
    Some(TrackLeaves {
        prfl: profile(trak, b"tkhd"),
        tkhd: leaf(one(trak, b"tkhd")?),
        elst,
        mdhd: leaf(one(mdia, b"mdhd")?),
        hdlr: leaf(one(mdia, b"hdlr")?),
        dref: leaf(one(one(minf, b"dinf")?, b"dref")?),
        stsd: leaf(one(stbl, b"stsd")?),
        stts: leaf(one(stbl, b"stts")?),
        ctts: one(stbl, b"ctts").map(leaf),
        stsc: leaf(one(stbl, b"stsc")?),
        stsz: leaf(one(stbl, b"stsz")?),
        // A whole file has one stco. Document 02: "Chunk offsets may then come from 'co64' ... in place of stco, exactly one of the two".
        chunk_offsets: leaf(one(stbl, b"stco").or_else(|| one(stbl, b"co64"))?),
        stss: one(stbl, b"stss").map(leaf),
    })
}

/// The leaves of a file that is not refused 1 to 3.
pub fn leaves(file: &[Atom]) -> Option<MovieLeaves> {
    let [moov] = of_kind(file, b"moov")[..] else {
        return None;
    };
    let mut tracks = Vec::new();
    for trak in of_kind(&moov.children, b"trak") {
        tracks.push(track(trak)?);
    }
    let mvhd = leaf(one(moov, b"mvhd")?);
    Some(MovieLeaves { moov: moov.place, prfl: profile(moov, b"mvhd"), mvhd, tracks })
}
