//! Films that are not refused for their tree, for what stands in the wrong place, or for the order of their atoms.
use super::base::*;
use reference::film::*;

/// Bytes that are no atoms.
const NONSENSE: [u8; 5] = [0, 0, 0, 3, 9];

/// The small track in a file with an mdat of 240 bytes, its chunks in the mdat.
fn with_mdat(is_first: bool) -> Node {
    let mdat = atom("mdat", &[7; 240]);
    let at = |begin: usize| {
        let begin = u32::try_from(begin).unwrap();
        Movie { tracks: vec![Track { stco: vec![begin + 8, begin + 158], ..w_track() }], ..w_movie() }.moov()
    };
    if is_first {
        file(vec![mdat, at(0)])
    } else {
        file(vec![at(at(0).bytes().len()), mdat])
    }
}

fn heads(films: &mut Films) {
    films.node(0, "w", w());
    films.node(0, "small", small());
    films.node(0, "full", full());
    films.node(0, "mdat-before-moov", with_mdat(true));
    films.node(0, "mdat-after-moov", with_mdat(false));
    films.small(0, "wide-moov", |film| film.at("moov").size = Size::Wide);
    films.full(0, "wide-moov-full", |film| film.at("moov").size = Size::Wide);
    let mut film = with_mdat(false);
    film.at("mdat").size = Size::Wide;
    films.node(0, "wide-mdat", film);
    let mut film = with_mdat(true);
    film.at("mdat").size = Size::Wide;
    film.at("moov").size = Size::Wide;
    films.node(0, "wide-mdat-before-wide-moov", film);
    films.tiny(0, "wide-free-of-sixteen", |film| film.push("", Node { size: Size::Wide, ..atom("free", &[]) }));
    films.tiny(0, "wide-free-of-seventeen", |film| film.push("", Node { size: Size::Wide, ..atom("free", &[9]) }));
    films.small(0, "size-zero-moov", |film| film.at("moov").size = Size::Says(0));
    let mut film = with_mdat(true);
    film.at("moov").size = Size::Says(0);
    films.node(0, "size-zero-moov-after-mdat", film);
    let mut film = with_mdat(false);
    film.at("mdat").size = Size::Says(0);
    films.node(0, "size-zero-mdat", film);
    let mut film = with_mdat(false);
    film.at("moov").size = Size::Says(0);
    films.node(0, "size-zero-moov-takes-mdat", film);
    films.tiny(0, "size-zero-mdat-empty", |film| film.push("", Node { size: Size::Says(0), ..atom("mdat", &[]) }));
    films.tiny(0, "size-zero-free-of-nine", |film| film.push("", Node { size: Size::Says(0), ..atom("free", &[9]) }));
    films.tiny(0, "eight-zero-bytes-at-end", |film| film.tail = vec![0; 8]);
    films.tiny(0, "nine-zero-bytes-at-end", |film| film.tail = vec![0; 9]);
}

/// Atoms in every container and at top level, before the first child and after the last.
fn everywhere(film: &mut Node, extra: &Node) {
    let mut paths = vec![""];
    paths.extend(CONTAINERS.map(|(_, path)| path));
    for path in paths {
        let children = &mut film.at(path).children;
        children.insert(0, extra.clone());
        children.insert(2, extra.clone());
        children.push(extra.clone());
    }
}

fn others(films: &mut Films) {
    for (name, extra) in [
        ("free", atom("free", &NONSENSE)),
        ("skip", atom("skip", &[])),
        ("ftyp", atom("ftyp", b"qt  \0\0\0\0qt  ")),
        ("file", atom("file", &NONSENSE)),
        ("upper-case-moov", atom("MOOV", &NONSENSE)),
        ("upper-case-trak", atom("TRAK", &NONSENSE)),
    ] {
        films.full(0, &format!("{name}-everywhere"), |film| everywhere(film, &extra));
    }
    let nameless = Node { kind: [0; 4], ..atom("free", &NONSENSE) };
    films.full(0, "type-zero-everywhere", |film| everywhere(film, &nameless));
    let copyright = Node { kind: [0xa9, b'c', b'p', b'y'], ..atom("free", &NONSENSE) };
    films.full(0, "type-of-high-bytes-everywhere", |film| everywhere(film, &copyright));
    films.small(0, "udta-with-nonsense-in-moov", |film| film.push("moov", atom("udta", &NONSENSE)));
    films.small(0, "udta-with-nonsense-in-trak", |film| film.push("moov trak", atom("udta", &NONSENSE)));
    films.small(0, "cmov-beside-mvhd", |film| film.push("moov", atom("cmov", &NONSENSE)));
    films.small(0, "rmra-beside-mvhd", |film| film.push("moov", atom("rmra", &NONSENSE)));
    films.small(0, "co64-beside-stco", |film| film.push(STBL, atom("co64", &NONSENSE)));
    films.small(0, "cslg-in-stbl", |film| film.push(STBL, atom("cslg", &NONSENSE)));
    films.small(0, "dref-in-minf", |film| film.push("moov trak mdia minf", atom("dref", &NONSENSE)));
    films.small(0, "moof-after-moov", |film| film.push("", atom("moof", &NONSENSE)));
    films.node(0, "no-trak", tiny());
    films.node(0, "two-traks", movie(&[full_track(), sound_track()]));
}

/// A container's type in each place that is not its own, and the read leaves likewise.
fn misplaced(films: &mut Films) {
    let places = [
        ("file", "", vec!["trak", "edts", "mdia", "minf", "dinf", "stbl"]),
        ("moov", "moov", vec!["moov", "edts", "mdia", "minf", "dinf", "stbl"]),
        ("trak", "moov trak", vec!["moov", "trak", "minf", "dinf", "stbl"]),
        ("edts", "moov trak edts", vec!["moov", "trak", "edts", "mdia", "minf", "dinf", "stbl"]),
        ("mdia", "moov trak mdia", vec!["moov", "trak", "edts", "mdia", "dinf", "stbl"]),
        ("minf", "moov trak mdia minf", vec!["moov", "trak", "edts", "mdia", "minf"]),
        ("dinf", "moov trak mdia minf dinf", vec!["moov", "trak", "edts", "mdia", "minf", "dinf", "stbl"]),
        ("stbl", STBL, vec!["moov", "trak", "edts", "mdia", "minf", "dinf", "stbl"]),
    ];
    for (parent, path, kinds) in &places {
        films.full(0, &format!("misplaced-containers-in-{parent}"), |film| {
            for kind in kinds {
                film.push(path, atom(kind, &NONSENSE));
            }
        });
    }
    films.small(0, "moov-in-moov-with-nonsense", |film| film.push("moov", atom("moov", &NONSENSE)));
    films.small(0, "trak-in-mdia-with-nonsense", |film| film.push("moov trak mdia", atom("trak", &NONSENSE)));
    films.small(0, "stbl-beside-minf-with-nonsense", |film| film.push("moov trak mdia", atom("stbl", &NONSENSE)));
    for (parent, path, _) in places {
        films.full(0, &format!("read-leaves-of-others-in-{parent}"), |film| {
            for (leaf, its_path) in LEAVES {
                if its_path != format!("{path} {leaf}").trim() {
                    film.push(path, atom(leaf, &[1]));
                }
            }
        });
    }
    films.small(0, "hdlr-in-minf", |film| film.push("moov trak mdia minf", hdlr(b"alis")));
    films.small(0, "hdlr-in-minf-empty", |film| film.push("moov trak mdia minf", atom("hdlr", &[])));
    films.small(0, "elst-in-trak", |film| film.push("moov trak", atom("elst", &[])));
    films.small(0, "whole-moov-in-moov", |film| {
        let moov = film.at("moov").clone();
        film.push("moov", moov);
    });
}

fn reverse(node: &mut Node) {
    node.children.reverse();
    for child in &mut node.children {
        reverse(child);
    }
}

fn orders(films: &mut Films) {
    films.full(0, "all-children-in-reverse", reverse);
    films.full(0, "without-edts", |film| film.remove("moov trak edts"));
    films.full(0, "without-ctts", |film| film.remove(path("ctts")));
    films.full(0, "without-stss", |film| film.remove(path("stss")));
    films.full(0, "flags-not-zero", |film| {
        for (_, path) in LEAVES {
            film.at(path).body[1..4].fill(255);
        }
        film.at("moov prfl").body[1..4].fill(255);
        film.at("moov trak prfl").body[1..4].fill(255);
    });
}

pub fn films(films: &mut Films) {
    heads(films);
    others(films);
    misplaced(films);
    orders(films);
}
