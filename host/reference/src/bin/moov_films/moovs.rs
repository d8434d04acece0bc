//! Moovs that are lent alone: offsets of 64 bits, lengths of files that are not at hand, and lent bytes that are not one moov atom.
use reference::film::*;
use reference::made::*;
use reference::movie::MoovAlone;

/// The longest file.
const LONGEST: u64 = (1 << 63) - 1;

const STBL: &str = "moov trak mdia minf stbl";
const STCO: &str = "moov trak mdia minf stbl stco";

pub struct Moovs {
    pub list: Vec<(u32, String, MoovAlone<Vec<u8>>)>,
}

impl Moovs {
    pub fn new() -> Moovs {
        Moovs { list: Vec::new() }
    }

    pub fn bytes(&mut self, number: u32, name: &str, moov: Vec<u8>, length: u64) {
        assert!(!self.list.iter().any(|film| film.0 == number && film.1 == name), "{number}-{name} twice");
        self.list.push((number, name.to_string(), MoovAlone { moov, length }));
    }

    /// W's moov after a change of what is lent.
    fn changed(&mut self, number: u32, name: &str, length: u64, change: impl FnOnce(&mut Node)) {
        let mut lent = w_movie().file();
        change(&mut lent);
        self.bytes(number, name, lent.bytes(), length);
    }

    /// W's moov with these offsets in a co64 in place of its stco.
    fn wide(&mut self, number: u32, name: &str, length: u64, offsets: [u64; 2]) {
        self.changed(number, name, length, |lent| lent.replace(STCO, co64(&offsets)));
    }
}

/// "Chunk offsets may then come from 'co64' (16+8n) in place of stco, exactly one of the two."
fn tables(moovs: &mut Moovs) {
    moovs.wide(0, "co64-alone", 4096, [1000, 900]);
    moovs.changed(3, "both-tables", 4096, |lent| lent.push(STBL, co64(&[1000, 900])));
    moovs.changed(3, "stco-and-an-empty-co64", 4096, |lent| lent.push(STBL, co64(&[])));
    moovs.changed(3, "neither-table", 4096, |lent| lent.remove(STCO));
    moovs.changed(3, "two-of-stco", 4096, |lent| lent.double(STCO));
    moovs.changed(3, "two-of-co64", 4096, |lent| {
        lent.replace(STCO, co64(&[1000, 900]));
        lent.double(&format!("{STBL} co64"));
    });
    moovs.changed(4, "co64-version-1", 4096, |lent| {
        lent.replace(STCO, co64(&[1000, 900]));
        lent.at(&format!("{STBL} co64")).body[0] = 1;
    });
    moovs.changed(5, "co64-with-offsets-of-32-bits", 4096, |lent| lent.at(STCO).kind = *b"co64");
    moovs.changed(5, "stco-with-offsets-of-64-bits", 4096, |lent| {
        lent.replace(STCO, Node { kind: *b"stco", ..co64(&[1000, 900]) });
    });
    moovs.changed(9, "co64-without-offsets", 4096, |lent| lent.replace(STCO, co64(&[])));
    moovs.changed(0, "co64-where-it-is-no-table", 4096, |lent| lent.push("moov trak", co64(&[])));
    let mut lent = movie(&[w_track(), sound_track(2, [3000, 2000, 1000])]).file();
    lent.replace("moov trak:1 mdia minf stbl stco", co64(&[1 << 40, 1 << 32, 1 << 33]));
    moovs.bytes(0, "stco-in-one-track-and-co64-in-another", lent.bytes(), 1 << 41);
}

/// Offsets and sums about the ends of 32 and of 64 bits. The second chunk of W has 70 bytes.
fn offsets(moovs: &mut Moovs) {
    moovs.changed(0, "stco-offset-2-32-less-one", 1 << 33, |lent| lent.set(STCO, 20, u32::MAX));
    moovs.wide(0, "offset-2-32-less-one", 1 << 33, [1000, (1 << 32) - 1]);
    moovs.wide(0, "offset-2-32", 1 << 33, [1000, 1 << 32]);
    moovs.wide(0, "first-offset-2-32", 1 << 33, [1 << 32, 900]);
    moovs.wide(12, "offset-2-32-in-a-file-of-2-32", 1 << 32, [1000, 1 << 32]);
    moovs.wide(0, "last-chunk-ends-with-the-longest-file", LONGEST, [1000, LONGEST - 70]);
    moovs.wide(12, "last-chunk-one-past-the-longest-file", LONGEST, [1000, LONGEST - 69]);
    moovs.wide(12, "offset-2-63-less-one", LONGEST, [1000, LONGEST]);
    moovs.wide(12, "offset-2-63", LONGEST, [1000, 1 << 63]);
    moovs.wide(12, "offset-2-64-less-one", LONGEST, [1000, u64::MAX]);
    moovs.wide(12, "offset-and-sizes-of-2-64", LONGEST, [u64::MAX - 149, 900]);
    moovs.changed(0, "no-bytes-at-2-63-less-one", LONGEST, |lent| {
        lent.set(&format!("{STBL} stsz"), 32, 0);
        lent.replace(STCO, co64(&[1000, LONGEST]));
    });
    moovs.changed(12, "no-bytes-at-2-63", LONGEST, |lent| {
        lent.set(&format!("{STBL} stsz"), 32, 0);
        lent.replace(STCO, co64(&[1000, LONGEST + 1]));
    });
    let long = w_with(|track| track.stsz = Sizes::Common(u32::MAX, 4));
    moovs.bytes(0, "chunk-of-more-than-2-32-bytes", movie(&[long]).file().bytes(), 1 << 40);
    let late = w_with(|track| track.duration = 121);
    let mut lent = movie(&[late]).file();
    lent.replace(STCO, co64(&[1 << 40, 1 << 41]));
    moovs.bytes(0, "mdhd-121-and-co64", lent.bytes(), 1 << 42);
}

/// W's track with these samples in a chunk for each offset.
fn chunked(moovs: &mut Moovs, name: &str, stts: &[(u32, u32)], stsc: &[(u32, u32, u32)], offsets: &[u64]) {
    let samples = stts.iter().map(|(count, _)| count).sum();
    let track = w_with(|track| {
        (track.stts, track.stsc) = (stts.to_vec(), stsc.to_vec());
        track.stsz = Sizes::Each((1..=samples).collect());
    });
    let mut lent = movie(&[track]).file();
    lent.replace(STCO, co64(offsets));
    moovs.bytes(0, name, lent.bytes(), LONGEST);
}

/// "One pair (offset, length) for each chunk touched, in chunk order": as many as a room of 16 places has place for, and about as many.
fn chunks(moovs: &mut Moovs) {
    let offsets: Vec<u64> = (0..9).map(|chunk| (1 << 62) >> (7 * chunk)).collect();
    chunked(moovs, "seven-chunks", &[(7, 10), (10, 5)], &[(1, 2, 1), (3, 1, 1), (4, 3, 1)], &offsets[..7]);
    chunked(moovs, "eight-chunks", &[(8, 15)], &[(1, 1, 1)], &offsets[..8]);
    chunked(moovs, "nine-chunks", &[(6, 15), (3, 10)], &[(1, 1, 1)], &offsets);
}

/// "1 there for lent bytes above their limit, or a length above 2^63-1 or below theirs"
fn lengths(moovs: &mut Moovs) {
    let small = movie(&[w_with(|track| track.stco = vec![0, 8])]).file().bytes();
    let lent = u64::try_from(small.len()).unwrap();
    moovs.bytes(0, "length-of-the-lent-bytes", small.clone(), lent);
    moovs.bytes(1, "length-one-short", small.clone(), lent - 1);
    moovs.bytes(1, "length-0", small.clone(), 0);
    moovs.bytes(0, "length-2-63-less-one", small.clone(), LONGEST);
    moovs.bytes(1, "length-2-63", small.clone(), LONGEST + 1);
    moovs.bytes(1, "length-2-64-less-one", small.clone(), u64::MAX);
    moovs.bytes(1, "length-one-short-and-three-bytes-over", [&small[..], &[0; 3]].concat(), lent + 2);
    moovs.changed(0, "length-of-the-last-end", 1150, |_| ());
    moovs.changed(12, "length-one-short-of-the-last-end", 1149, |_| ());
}

/// "2 if the lent bytes aren't one moov atom"; "size 0 runs to their end"
fn atoms(moovs: &mut Moovs) {
    moovs.changed(0, "size-0", 4096, |lent| lent.at("moov").size = Size::Says(0));
    moovs.changed(0, "size-of-64-bits", 4096, |lent| lent.at("moov").size = Size::Wide);
    moovs.changed(0, "size-0-with-free-after", 4096, |lent| {
        lent.at("moov").size = Size::Says(0);
        lent.push("", atom("free", &[7; 5]));
    });
    moovs.changed(2, "size-of-64-bits-below-16", 4096, |lent| lent.at("moov").size = Size::WideSays(15));
    moovs.changed(2, "size-of-the-file", 4096, |lent| lent.at("moov").size = Size::Says(4096));
    moovs.changed(2, "free-before", 4096, |lent| lent.insert_before("moov", atom("free", &[])));
    moovs.changed(2, "free-after", 4096, |lent| lent.push("", atom("free", &[])));
    moovs.changed(2, "one-byte-after", 4096, |lent| lent.tail = vec![0]);
    moovs.changed(2, "two-moovs", 4096, |lent| lent.double("moov"));
    moovs.changed(2, "another-type", 4096, |lent| lent.at("moov").kind = *b"MOOV");
    moovs.changed(2, "whole-file", 4096, |lent| *lent = w());
    moovs.changed(2, "no-bytes", 0, |lent| lent.children.clear());
    moovs.changed(2, "no-bytes-of-a-file", 4096, |lent| lent.children.clear());
    moovs.changed(3, "empty-moov", 4096, |lent| *lent = file(vec![atom("moov", &[])]));
}

pub fn films(moovs: &mut Moovs) {
    tables(moovs);
    offsets(moovs);
    chunks(moovs);
    lengths(moovs);
    atoms(moovs);
}
