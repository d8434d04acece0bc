//! The atoms of a film, for the warnings and for what is read of a film that is refused: no answer follows from what is found here. Films that are refused
//! have no warnings, so a wrong size only ends the walk. A moov alone is a file of one atom here.

use chaldoref::FourCC;

/// An atom's type and its body.
type Atom<'a> = (&'a [u8], &'a [u8]);

/// Atoms one after the other.
struct Atoms<'a> {
    rest: &'a [u8],
    /// Whether they stand in the file itself, where sizes of 64 bits and up to the end are written too.
    top: bool,
}

impl<'a> Iterator for Atoms<'a> {
    type Item = Atom<'a>;

    fn next(&mut self) -> Option<Atom<'a>> {
        let rest = std::mem::take(&mut self.rest);
        let (header, size) = extent(rest, self.top)?;
        self.rest = &rest[size..];
        Some((&rest[4..8], &rest[header..size]))
    }
}

/// How many bytes the header of the first of these atoms has, and how many the whole, at top level or inside an atom;
/// nothing where the size is wrong or passes the end.
pub fn extent(atoms: &[u8], top: bool) -> Option<(usize, usize)> {
    let (header, size) = said(atoms, top)?;
    let size = size.map_or(Some(atoms.len()), |size| usize::try_from(size).ok())?;
    (header <= size && size <= atoms.len()).then_some((header, size))
}

/// How many bytes the header of an atom has, and the size that it says, or nothing for that up to the end. The size may be wrong.
pub fn said(header: &[u8], top: bool) -> Option<(usize, Option<u64>)> {
    match number(header, 0)? {
        0 if top => Some((8, None)),
        1 if top => Some((16, Some(u64::from_be_bytes(*header.get(8..)?.first_chunk()?)))),
        size => Some((8, Some(size.into()))),
    }
}

/// The 32-bit number at a place.
pub fn number(bytes: &[u8], place: usize) -> Option<u32> {
    Some(u32::from_be_bytes(*bytes.get(place..)?.first_chunk()?))
}

/// The bodies of the atoms of a type.
fn of_type<'a>(atoms: Atoms<'a>, wanted: &'static [u8; 4]) -> impl Iterator<Item = &'a [u8]> {
    atoms.filter(move |(found, _)| found == wanted).map(|(_, body)| body)
}

fn in_file(file: &[u8]) -> Atoms<'_> {
    Atoms { rest: file, top: true }
}

fn inside(body: &[u8]) -> Atoms<'_> {
    Atoms { rest: body, top: false }
}

/// The body of the first child of a type.
fn child<'a>(body: &'a [u8], wanted: &'static [u8; 4]) -> Option<&'a [u8]> {
    of_type(inside(body), wanted).next()
}

fn moov(file: &[u8]) -> Option<&[u8]> {
    of_type(in_file(file), b"moov").next()
}

/// The body of the first atom of a type in moov.
pub fn moov_child<'a>(file: &'a [u8], wanted: &'static [u8; 4]) -> Option<&'a [u8]> {
    child(moov(file)?, wanted)
}

/// The tracks, in file order.
pub fn traks(file: &[u8]) -> impl Iterator<Item = Trak<'_>> {
    of_type(inside(moov(file).unwrap_or_default()), b"trak").map(Trak)
}

/// The track of that ID.
pub fn trak(file: &[u8], track: u32) -> Option<Trak<'_>> {
    traks(file).find(|trak| trak.id() == Some(track))
}

/// A track: the body of its trak. What is not there, or too short, is nothing.
#[derive(Clone, Copy)]
pub struct Trak<'a>(&'a [u8]);

/// As many bytes of a handler's name are looked at, with the one that may say its length.
const LONGEST_NAME: usize = 256;

/// The places of the leaves of a track, in the order in which the rules name them.
const LEAVES: [&[&[u8; 4]]; 13] = [
    &[b"tkhd"],
    &[b"mdia", b"mdhd"],
    &[b"mdia", b"hdlr"],
    &[b"edts", b"elst"],
    &[b"mdia", b"minf", b"dinf", b"dref"],
    &[b"mdia", b"minf", b"stbl", b"stsd"],
    &[b"mdia", b"minf", b"stbl", b"stts"],
    &[b"mdia", b"minf", b"stbl", b"ctts"],
    &[b"mdia", b"minf", b"stbl", b"stss"],
    &[b"mdia", b"minf", b"stbl", b"stsc"],
    &[b"mdia", b"minf", b"stbl", b"stsz"],
    &[b"mdia", b"minf", b"stbl", b"stco"],
    &[b"mdia", b"minf", b"stbl", b"co64"],
];

impl<'a> Trak<'a> {
    /// The body of the atom at a path, the first of each type.
    pub fn leaf(self, path: &[&'static [u8; 4]]) -> Option<&'a [u8]> {
        path.iter().try_fold(self.0, |body, kind| child(body, kind))
    }

    /// A number of the atom at a path, by its place in the body.
    pub fn number(self, path: &[&'static [u8; 4]], place: usize) -> Option<u32> {
        number(self.leaf(path)?, place)
    }

    /// The bodies of those leaves that are there, each with its type.
    pub fn read_leaves(self) -> Vec<(&'static [u8; 4], &'a [u8])> {
        LEAVES.iter().filter_map(|path| Some((*path.last()?, self.leaf(path)?))).collect()
    }

    /// Its ID, by a header of version 1 too.
    pub fn id(self) -> Option<u32> {
        let tkhd = self.leaf(&[b"tkhd"])?;
        number(tkhd, if tkhd.first() == Some(&1) { 20 } else { 12 })
    }

    /// What its handler says it is; zeros where there is none.
    pub fn subtype(self) -> [u8; 4] {
        self.number(&[b"mdia", b"hdlr"], 8).unwrap_or_default().to_be_bytes()
    }

    pub fn scale(self) -> Option<u32> {
        self.number(&[b"mdia", b"mdhd"], 12)
    }

    pub fn ctts(self) -> Option<&'a [u8]> {
        self.leaf(&[b"mdia", b"minf", b"stbl", b"ctts"])
    }

    /// The duration, the media time and the rate of each edit, if there is a list.
    pub fn edits(self) -> Option<Vec<[u32; 3]>> {
        let list = self.leaf(&[b"edts", b"elst"])?.get(8..)?;
        let row = |row: &[u8]| [0, 4, 8].map(|place| number(row, place).unwrap_or_default());
        Some(list.chunks_exact(12).map(row).collect())
    }

    /// The sample descriptions, each from its format on.
    pub fn descriptions(self) -> Vec<&'a [u8]> {
        let list = self.leaf(&[b"mdia", b"minf", b"stbl", b"stsd"]).and_then(|stsd| stsd.get(8..)).unwrap_or_default();
        let mut rest = list;
        std::iter::from_fn(|| {
            let (_, size) = extent(rest, false)?;
            let one = &rest[4..size];
            rest = &rest[size..];
            Some(one)
        })
        .collect()
    }

    /// The formats of its descriptions.
    pub fn formats(self) -> Vec<FourCC> {
        self.descriptions().into_iter().filter_map(|body| number(body, 0)).map(FourCC).collect()
    }

    /// The name of its handler: a string after its length, as QuickTime has it, or up to a zero, as MP4 has it.
    pub fn handler_name(self) -> Option<String> {
        let name = self.leaf(&[b"mdia", b"hdlr"])?.get(24..)?;
        let name = &name[..name.len().min(LONGEST_NAME)];
        let (first, rest) = name.split_first()?;
        let length = usize::from(*first);
        let is_counted = length == rest.len() || (length < 32 && length <= rest.len());
        let counted = if is_counted { &rest[..length] } else { name };
        let end = counted.iter().position(|byte| *byte == 0).unwrap_or(counted.len());
        Some(String::from_utf8_lossy(&counted[..end]).into_owned())
    }

    /// The total of the sample durations.
    pub fn total(self) -> u64 {
        self.time_of(u32::MAX)
    }

    /// The durations of the first samples, so many, added up.
    pub fn time_of(self, samples: u32) -> u64 {
        let runs = self.leaf(&[b"mdia", b"minf", b"stbl", b"stts"]).and_then(|stts| stts.get(8..)).unwrap_or_default();
        let (mut left, mut time) = (u64::from(samples), 0u64);
        for run in runs.chunks_exact(8) {
            let [count, duration] = [0, 4].map(|place| u64::from(number(run, place).unwrap_or_default()));
            let taken = count.min(left);
            left -= taken;
            time = time.saturating_add(taken * duration);
        }
        time
    }
}

#[cfg(test)]
mod tests {
    use super::*;
    use reference::film::{atom, w_movie, w_track, Movie, Size, Track};
    use reference::made::moov_last;
    use reference::maker::{valid, Random};
    use reference::movie::atoms::{leaves, tree};

    fn types(atoms: Atoms) -> Vec<String> {
        atoms.map(|(found, _)| String::from_utf8(found.to_vec()).unwrap()).collect()
    }

    #[test]
    fn every_size_at_top_level() {
        let mut film = moov_last();
        film.at("skip").size = Size::Says(0);
        film.resize("skip", 5);
        let bytes = film.bytes();
        assert_eq!(types(in_file(&bytes)), ["mdat", "free", "moov", "skip"]);
        assert_eq!(types(inside(moov(&bytes).unwrap())), ["mvhd", "trak"]);
        assert_eq!(in_file(&bytes).last().unwrap().1, [0; 5]);
    }

    #[test]
    fn inside_an_atom_0_and_1_are_no_sizes() {
        for size in [0, 1, 7, 17] {
            let bytes = reference::film::Node { size: Size::Says(size), ..atom("free", &[0; 8]) }.bytes();
            assert_eq!(types(inside(&bytes)), [""; 0], "{size}");
        }
        assert_eq!(types(inside(&atom("free", &[0; 8]).bytes())), ["free"]);
    }

    #[test]
    fn names_of_handlers() {
        let named = |name: &[u8]| {
            let mut film = w_movie().file_of(4096);
            film.at("moov trak mdia hdlr").body.truncate(24);
            film.at("moov trak mdia hdlr").body.extend(name);
            trak(&film.bytes(), 1).unwrap().handler_name()
        };
        for (bytes, name) in [
            (&b"\x04Hose"[..], "Hose"),
            (b"\x04Hose\0", "Hose"),
            (b"Hose\0", "Hose"),
            (b"Hose", "Hose"),
            (b"\0", ""),
            (b"\x20A name of thirty-two characters.", "A name of thirty-two characters."),
        ] {
            assert_eq!(named(bytes).as_deref(), Some(name), "{bytes:?}");
        }
        assert_eq!(named(b""), None);
        assert_eq!(named(&[b'x'; 5000]).unwrap().len(), LONGEST_NAME);
    }

    #[test]
    fn times_of_samples() {
        let film =
            Movie { tracks: vec![Track { stts: vec![(3, 24), (1, 48)], ..w_track() }], ..w_movie() }.file_of(4096);
        let bytes = film.bytes();
        let trak = trak(&bytes, 1).unwrap();
        assert_eq!([0, 1, 3, 4, 9].map(|n| trak.time_of(n)), [0, 24, 72, 120, 120]);
        assert_eq!(trak.total(), 120);
    }

    #[test]
    fn of_films_from_a_seed_the_reference_says_the_same() {
        let mut found = [0; 2];
        for n in 0..300 {
            let film = valid(&mut Random::of(24, n));
            for track in leaves(&tree(&film).unwrap()).unwrap().tracks {
                let id = u32::try_from(track.tkhd.number(20)).unwrap();
                let trak = trak(&film, id).unwrap();
                assert_eq!(trak.ctts().is_some(), track.ctts.is_some(), "{n}, track {id}");
                assert_eq!(trak.descriptions().len() as u64, track.stsd.number(12), "{n}, track {id}");
                assert_eq!(
                    trak.edits().map(|edits| edits.len() as u64),
                    track.elst.as_ref().map(|elst| elst.number(12))
                );
                assert_eq!(trak.scale().map(u64::from), Some(track.mdhd.number(20)));
                found[usize::from(track.ctts.is_some())] += 1;
            }
        }
        assert!(found.iter().all(|count| *count > 50), "{found:?}");
    }
}
