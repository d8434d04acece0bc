//! Films for tests: a movie given by its tables, as a tree of atoms that can be damaged before it is written.

/// How an atom's size is written.
#[derive(Clone, Copy, Debug, PartialEq)]
pub enum Size {
    /// As it is, in 32 bits.
    True,
    /// As it is, in the 64-bit form.
    Wide,
    /// These 32 bits, whatever the size is.
    Says(u32),
    /// The 64-bit form with these 64 bits, whatever the size is.
    WideSays(u64),
    /// No header at all: the file itself, or bytes that are no atom.
    NoHeader,
}

/// An atom, or the whole file: its header, body, children and last the bytes that no child has.
#[derive(Clone, Debug)]
pub struct Node {
    pub kind: [u8; 4],
    pub size: Size,
    pub body: Vec<u8>,
    pub children: Vec<Node>,
    pub tail: Vec<u8>,
}

fn kind(text: &str) -> [u8; 4] {
    text.as_bytes().try_into().unwrap()
}

/// An atom with that body.
pub fn atom(name: &str, body: &[u8]) -> Node {
    Node { kind: kind(name), size: Size::True, body: body.to_vec(), children: Vec::new(), tail: Vec::new() }
}

/// An atom with those children.
pub fn container(name: &str, children: Vec<Node>) -> Node {
    Node { children, ..atom(name, &[]) }
}

/// A whole file of those atoms.
pub fn file(children: Vec<Node>) -> Node {
    Node { size: Size::NoHeader, ..container("file", children) }
}

/// Bytes that need not be an atom.
pub fn raw(bytes: &[u8]) -> Node {
    Node { size: Size::NoHeader, ..atom("raw ", bytes) }
}

/// A child's type, and which of those of that type it is, counted from 0: "trak" or "trak:1".
fn step(text: &str) -> ([u8; 4], usize) {
    match text.split_once(':') {
        Some((name, nth)) => (kind(name), nth.parse().unwrap()),
        None => (kind(text), 0),
    }
}

impl Node {
    pub fn bytes(&self) -> Vec<u8> {
        let mut inner = self.body.clone();
        for child in &self.children {
            inner.extend(child.bytes());
        }
        inner.extend(&self.tail);
        let long = u64::try_from(inner.len()).unwrap();
        let (short, wide) = match self.size {
            Size::True => (u32::try_from(long + 8).unwrap(), None),
            Size::Wide => (1, Some(long + 16)),
            Size::Says(n) => (n, None),
            Size::WideSays(n) => (1, Some(n)),
            Size::NoHeader => return inner,
        };
        let mut bytes = short.to_be_bytes().to_vec();
        bytes.extend(self.kind);
        if let Some(n) = wide {
            bytes.extend(n.to_be_bytes());
        }
        bytes.extend(inner);
        bytes
    }

    fn place(&self, name: &str) -> usize {
        let (kind, nth) = step(name);
        let all: Vec<usize> = (0..self.children.len()).filter(|i| self.children[*i].kind == kind).collect();
        all[nth]
    }

    /// The atom at a path such as "moov trak:1 mdia". The empty path is this node.
    pub fn at(&mut self, path: &str) -> &mut Node {
        let mut node = self;
        for name in path.split_whitespace() {
            let place = node.place(name);
            node = &mut node.children[place];
        }
        node
    }

    /// The parent of the atom at a path, and which of its children the atom is.
    fn parent(&mut self, path: &str) -> (&mut Node, usize) {
        let (above, name) = path.rsplit_once(' ').unwrap_or(("", path));
        let node = self.at(above);
        let place = node.place(name);
        (node, place)
    }

    pub fn replace(&mut self, path: &str, new: Node) {
        *self.at(path) = new;
    }

    pub fn remove(&mut self, path: &str) {
        let (parent, place) = self.parent(path);
        parent.children.remove(place);
    }

    /// A second atom like it, just after it.
    pub fn double(&mut self, path: &str) {
        let (parent, place) = self.parent(path);
        let copy = parent.children[place].clone();
        parent.children.insert(place + 1, copy);
    }

    pub fn insert_before(&mut self, path: &str, new: Node) {
        let (parent, place) = self.parent(path);
        parent.children.insert(place, new);
    }

    pub fn insert_after(&mut self, path: &str, new: Node) {
        let (parent, place) = self.parent(path);
        parent.children.insert(place + 1, new);
    }

    /// A last child for the atom at a path.
    pub fn push(&mut self, path: &str, new: Node) {
        self.at(path).children.push(new);
    }

    /// The first bytes of the body, or the body and zeros after it.
    pub fn resize(&mut self, path: &str, length: usize) {
        self.at(path).body.resize(length, 0);
    }

    /// The 32-bit number at an offset from the atom's first byte, whose header has 8 bytes.
    pub fn set(&mut self, path: &str, offset: usize, n: u32) {
        self.at(path).body[offset - 8..offset - 4].copy_from_slice(&n.to_be_bytes());
    }
}

/// A track by its tables.
#[derive(Clone, Debug)]
pub struct Track {
    pub id: u32,
    pub subtype: [u8; 4],
    pub scale: u32,
    pub duration: u32,
    pub descriptions: Vec<Vec<u8>>,
    /// The entries of dref.
    pub references: Vec<Vec<u8>>,
    pub stts: Vec<(u32, u32)>,
    pub ctts: Option<Vec<(u32, i32)>>,
    pub stsc: Vec<(u32, u32, u32)>,
    /// The common size and the number of samples, or the sizes.
    pub stsz: Sizes,
    pub stco: Vec<u32>,
    pub stss: Option<Vec<u32>>,
    /// Duration, media time and rate.
    pub edits: Option<Vec<(u32, i32, u32)>>,
    /// Reserved, part-ID, feature code and value.
    pub profile: Option<Vec<[u32; 4]>>,
}

#[derive(Clone, Debug)]
pub enum Sizes {
    Common(u32, u32),
    Each(Vec<u32>),
}

/// A movie by its tables.
#[derive(Clone, Debug)]
pub struct Movie {
    pub scale: u32,
    pub duration: u32,
    pub profile: Option<Vec<[u32; 4]>>,
    pub tracks: Vec<Track>,
}

/// Four zero bytes of version and flags, and zeros up to an atom's whole size, with numbers at some offsets.
fn fields(name: &str, size: usize, numbers: &[(usize, u32)]) -> Node {
    let mut node = atom(name, &vec![0; size - 8]);
    for (offset, n) in numbers {
        node.set("", *offset, *n);
    }
    node
}

/// A leaf with a table: version and flags, the number of entries, and the entries' numbers.
pub fn table(name: &str, count: usize, numbers: &[u32]) -> Node {
    let mut body = vec![0; 4];
    body.extend(u32::try_from(count).unwrap().to_be_bytes());
    for n in numbers {
        body.extend(n.to_be_bytes());
    }
    atom(name, &body)
}

/// The bits of a signed number.
pub fn bits(n: i32) -> u32 {
    u32::from_be_bytes(n.to_be_bytes())
}

pub fn mvhd(scale: u32, duration: u32) -> Node {
    fields("mvhd", 108, &[(20, scale), (24, duration)])
}

pub fn tkhd(id: u32) -> Node {
    fields("tkhd", 92, &[(20, id)])
}

pub fn mdhd(scale: u32, duration: u32) -> Node {
    fields("mdhd", 32, &[(20, scale), (24, duration)])
}

pub fn hdlr(subtype: &[u8; 4]) -> Node {
    fields("hdlr", 32, &[(12, u32::from_be_bytes(*b"mhlr")), (16, u32::from_be_bytes(*subtype))])
}

pub fn prfl(records: &[[u32; 4]]) -> Node {
    table("prfl", records.len(), &records.concat())
}

pub fn elst(edits: &[(u32, i32, u32)]) -> Node {
    let numbers: Vec<u32> = edits.iter().flat_map(|(duration, time, rate)| [*duration, bits(*time), *rate]).collect();
    table("elst", edits.len(), &numbers)
}

pub fn stts(entries: &[(u32, u32)]) -> Node {
    let numbers: Vec<u32> = entries.iter().flat_map(|(count, duration)| [*count, *duration]).collect();
    table("stts", entries.len(), &numbers)
}

pub fn ctts(entries: &[(u32, i32)]) -> Node {
    let numbers: Vec<u32> = entries.iter().flat_map(|(count, offset)| [*count, bits(*offset)]).collect();
    table("ctts", entries.len(), &numbers)
}

pub fn stsc(entries: &[(u32, u32, u32)]) -> Node {
    let numbers: Vec<u32> = entries.iter().flat_map(|(first, samples, id)| [*first, *samples, *id]).collect();
    table("stsc", entries.len(), &numbers)
}

/// An stsz by its three fields.
pub fn stsz_fields(common: u32, count: u32, sizes: &[u32]) -> Node {
    let mut node = table("stsz", 0, sizes);
    node.set("", 12, common);
    node.body.splice(8..8, count.to_be_bytes());
    node
}

pub fn stsz(sizes: &Sizes) -> Node {
    match sizes {
        Sizes::Common(size, count) => stsz_fields(*size, *count, &[]),
        Sizes::Each(each) => stsz_fields(0, u32::try_from(each.len()).unwrap(), each),
    }
}

pub fn stco(offsets: &[u32]) -> Node {
    table("stco", offsets.len(), offsets)
}

/// The table in place of stco whose offsets have 64 bits.
pub fn co64(offsets: &[u64]) -> Node {
    let mut node = table("co64", offsets.len(), &[]);
    node.body.extend(offsets.iter().flat_map(|offset| offset.to_be_bytes()));
    node
}

pub fn stss(samples: &[u32]) -> Node {
    table("stss", samples.len(), samples)
}

/// A description that says that it has so many bytes and has so many. Its samples are where the first data reference says.
pub fn description(format: &[u8; 4], size: usize) -> Vec<u8> {
    let mut bytes = u32::try_from(size).unwrap().to_be_bytes().to_vec();
    bytes.extend(format);
    bytes.resize(size, 0);
    if size >= 16 {
        bytes[15] = 1;
    }
    bytes
}

/// A description with that reference index.
pub fn referring(mut description: Vec<u8>, index: u16) -> Vec<u8> {
    description[14..16].copy_from_slice(&index.to_be_bytes());
    description
}

/// A description of 36 bytes with a width and a height.
pub fn picture(width: u16, height: u16) -> Vec<u8> {
    let mut bytes = description(b"jpeg", 36);
    bytes[32..34].copy_from_slice(&width.to_be_bytes());
    bytes[34..36].copy_from_slice(&height.to_be_bytes());
    bytes
}

pub fn stsd(descriptions: &[Vec<u8>]) -> Node {
    let mut node = table("stsd", descriptions.len(), &[]);
    node.body.extend(descriptions.concat());
    node
}

/// A data reference with these flags, and what follows them.
pub fn reference(kind: &[u8; 4], flags: u32, rest: &[u8]) -> Vec<u8> {
    Node { kind: *kind, ..atom("alis", &[&flags.to_be_bytes(), rest].concat()) }.bytes()
}

/// The data reference that means this file.
pub fn this_file() -> Vec<u8> {
    reference(b"alis", 1, &[])
}

pub fn dref(references: &[Vec<u8>]) -> Node {
    let mut node = table("dref", references.len(), &[]);
    node.body.extend(references.concat());
    node
}

pub fn dinf(references: &[Vec<u8>]) -> Node {
    container("dinf", vec![dref(references)])
}

impl Track {
    pub fn trak(&self) -> Node {
        let mut stbl = vec![stsd(&self.descriptions), stts(&self.stts)];
        stbl.extend(self.ctts.iter().map(|entries| ctts(entries)));
        stbl.extend(self.stss.iter().map(|samples| stss(samples)));
        stbl.extend([stsc(&self.stsc), stsz(&self.stsz), stco(&self.stco)]);
        let minf = container("minf", vec![dinf(&self.references), container("stbl", stbl)]);
        let mdia = container("mdia", vec![mdhd(self.scale, self.duration), hdlr(&self.subtype), minf]);
        let mut trak = Vec::new();
        trak.extend(self.profile.iter().map(|records| prfl(records)));
        trak.push(tkhd(self.id));
        trak.extend(self.edits.iter().map(|edits| container("edts", vec![elst(edits)])));
        trak.push(mdia);
        container("trak", trak)
    }
}

impl Movie {
    pub fn moov(&self) -> Node {
        let mut moov = Vec::new();
        moov.extend(self.profile.iter().map(|records| prfl(records)));
        moov.push(mvhd(self.scale, self.duration));
        moov.extend(self.tracks.iter().map(Track::trak));
        container("moov", moov)
    }

    /// A file with nothing but the moov.
    pub fn file(&self) -> Node {
        file(vec![self.moov()])
    }

    /// A file of so many bytes: the moov, and an mdat for the rest. Each byte of the mdat differs from its neighbours.
    pub fn file_of(&self, length: usize) -> Node {
        let moov = self.moov();
        let begin = moov.bytes().len() + 8;
        let body: Vec<u8> = (begin..length).map(|i| u8::try_from(i % 251).unwrap()).collect();
        file(vec![moov, atom("mdat", &body)])
    }
}

/// The one track of film W.
pub fn w_track() -> Track {
    Track {
        id: 1,
        subtype: *b"vide",
        scale: 600,
        duration: 120,
        descriptions: vec![picture(320, 240)],
        references: vec![this_file()],
        stts: vec![(3, 24), (1, 48)],
        ctts: None,
        stsc: vec![(1, 3, 1), (2, 1, 1)],
        stsz: Sizes::Each(vec![100, 50, 0, 70]),
        stco: vec![1000, 900],
        stss: None,
        edits: None,
        profile: None,
    }
}

/// The tables of film W.
pub fn w_movie() -> Movie {
    Movie { scale: 600, duration: 120, profile: None, tracks: vec![w_track()] }
}

/// Film W: 4,096 bytes.
pub fn w() -> Node {
    w_movie().file_of(4096)
}
