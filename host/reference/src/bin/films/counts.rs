//! Refused 3: "an atom is absent or occurs too often".
use super::base::*;
use reference::film::*;

fn files(films: &mut Films) {
    films.bytes(3, "empty-file", vec![]);
    films.bytes(3, "eight-zero-bytes", vec![0; 8]);
    films.bytes(3, "empty-moov-alone", atom("moov", &[]).bytes());
    films.node(3, "mdat-alone", file(vec![atom("mdat", &[9; 20])]));
    films.node(3, "empty-wide-moov", file(vec![Node { size: Size::Wide, ..atom("moov", &[]) }]));
    films.node(3, "empty-size-zero-moov", file(vec![Node { size: Size::Says(0), ..atom("moov", &[]) }]));
    films.tiny(3, "upper-case-moov-alone", |film| film.at("moov").kind = *b"MOOV");
    films.tiny(3, "moov-in-free", |film| {
        let moov = film.at("moov").clone();
        film.replace("moov", container("free", vec![moov]));
    });
    films.node(3, "cmov-alone", file(vec![container("moov", vec![atom("cmov", &[9; 20])])]));
    films.node(3, "rmra-alone", file(vec![container("moov", vec![atom("rmra", &[9; 20])])]));
    films.tiny(3, "second-moov-empty", |film| film.push("", container("moov", vec![])));
    films.tiny(3, "second-moov-of-size-zero", |film| film.push("", Node { size: Size::Says(0), ..atom("moov", &[]) }));
    films.tiny(3, "second-moov-wide", |film| film.push("", Node { size: Size::Wide, ..atom("moov", &[]) }));
    films.tiny(3, "first-moov-empty", |film| film.insert_before("moov", container("moov", vec![])));
    films.tiny(3, "three-moovs", |film| {
        film.double("moov");
        film.double("moov");
    });
}

fn required(films: &mut Films) {
    let containers = CONTAINERS.iter().filter(|(name, _)| !["trak", "edts"].contains(name));
    let leaves = LEAVES.iter().filter(|(name, _)| !["ctts", "stss"].contains(name));
    for (name, path) in containers.chain(leaves) {
        films.full(3, &format!("no-{name}"), |film| film.remove(path));
        films.full(3, &format!("two-{name}"), |film| film.double(path));
    }
    for (name, path) in [("edts", "moov trak edts"), ("ctts", path("ctts")), ("stss", path("stss"))] {
        films.full(3, &format!("two-{name}"), |film| film.double(path));
    }
}

fn containers(films: &mut Films) {
    for (name, path) in CONTAINERS {
        films.full(3, &format!("empty-{name}"), |film| film.replace(path, container(name, vec![])));
        films.full(3, &format!("empty-second-{name}"), |film| film.insert_after(path, container(name, vec![])));
    }
    films.small(3, "edts-without-elst-and-elst-in-trak", |film| {
        film.push("moov trak", container("edts", vec![]));
        film.push("moov trak", elst(&[(60, 0, 65536)]));
    });
    films.full(3, "three-edts", |film| {
        film.double("moov trak edts");
        film.double("moov trak edts");
    });
    // An empty second leaf counts as well as a whole one.
    films.full(3, "empty-second-ctts", |film| film.push(STBL, atom("ctts", &[])));
    films.full(3, "empty-second-stss", |film| film.push(STBL, atom("stss", &[])));
    films.full(3, "empty-second-stsd", |film| film.push(STBL, atom("stsd", &[])));
}

/// Atoms that are there and stand in the wrong place or have another type.
fn elsewhere(films: &mut Films) {
    for (name, from, to) in [
        ("hdlr-in-minf-alone", path("hdlr"), "moov trak mdia minf"),
        ("mvhd-in-trak-alone", path("mvhd"), "moov trak"),
        ("tkhd-in-moov-alone", path("tkhd"), "moov"),
        ("mdhd-in-trak-alone", path("mdhd"), "moov trak"),
        ("stco-in-minf-alone", path("stco"), "moov trak mdia minf"),
        ("stbl-in-mdia-alone", STBL, "moov trak mdia"),
        ("dinf-in-mdia-alone", "moov trak mdia minf dinf", "moov trak mdia"),
        ("dref-in-minf-alone", path("dref"), "moov trak mdia minf"),
        ("mdia-in-moov-alone", "moov trak mdia", "moov"),
        ("trak-mdia-minf-in-trak", "moov trak mdia minf", "moov trak"),
    ] {
        films.small(3, name, |film| {
            let moved = film.at(from).clone();
            film.remove(from);
            film.push(to, moved);
        });
    }
    films.small(3, "co64-for-stco", |film| film.at(path("stco")).kind = *b"co64");
    films.small(3, "stz2-for-stsz", |film| film.at(path("stsz")).kind = *b"stz2");
    films.small(3, "upper-case-mvhd", |film| film.at(path("mvhd")).kind = *b"MVHD");
    films.small(3, "upper-case-stbl", |film| film.at(STBL).kind = *b"Stbl");
    films.node(3, "no-stsz-in-last-of-two-traks", {
        let mut film = movie(&[small_track(), sound_track()]);
        film.remove("moov trak:1 mdia minf stbl stsz");
        film
    });
    films.node(3, "two-tkhd-in-first-of-two-traks", {
        let mut film = movie(&[small_track(), sound_track()]);
        film.double("moov trak:0 tkhd");
        film
    });
}

pub fn films(films: &mut Films) {
    files(films);
    required(films);
    containers(films);
    elsewhere(films);
}
