//! Refusal 3: the atoms that must be there, and those that may be there once.
use super::alone::not_one_offset_table;
use crate::movie::atoms::{of_kind, Atom, Place, TOP};
use crate::movie::fault::{name, trak_name};
use crate::movie::lent::Way;

/// Atoms that other films have in place of one that is read.
const IN_PLACE: [(&[u8; 4], &[u8; 4]); 3] = [(b"stco", b"co64"), (b"stsz", b"stz2"), (b"mvhd", b"cmov")];

fn absent(kind: &[u8; 4], parent: &Place, atoms: &[Atom]) -> String {
    let other =
        IN_PLACE.iter().find(|(absent, _)| *absent == kind).map_or(Vec::new(), |(_, other)| of_kind(atoms, other));
    let instead = other.first().map_or(String::new(), |atom| format!("; {} is there, and is not read", atom.place));
    format!("{} is absent from {parent}{instead}", name(kind))
}

/// "Exactly one each" of the first types, "at most one" of the second, in every container of that kind.
fn wrong_count(parent: &Place, atoms: &[Atom], exactly_one: &[&[u8; 4]], at_most_one: &[&[u8; 4]]) -> Option<String> {
    let count = |kind: &[u8; 4]| of_kind(atoms, kind).len();
    if let Some(kind) = exactly_one.iter().find(|kind| count(kind) == 0) {
        return Some(absent(kind, parent, atoms));
    }
    let kind = exactly_one.iter().chain(at_most_one).find(|kind| count(kind) > 1)?;
    Some(format!("{} occurs {} times in {parent}, and may occur once", name(kind), count(kind)))
}

/// The same in an atom.
fn wrong_in(parent: &Atom, exactly_one: &[&[u8; 4]], at_most_one: &[&[u8; 4]]) -> Option<String> {
    wrong_count(&parent.place, &parent.children, exactly_one, at_most_one)
}

/// The first child of that type in which something is wrong.
fn inside(parent: &Atom, kind: &[u8; 4], wrong: impl Fn(&Atom) -> Option<String>) -> Option<String> {
    of_kind(&parent.children, kind).into_iter().find_map(wrong)
}

fn wrong_stbl(stbl: &Atom, way: Way) -> Option<String> {
    // "stsd, stts, stsc, stsz and stco in stbl"; "ctts and stss in stbl"
    let tables: [&[u8; 4]; 5] = [b"stsd", b"stts", b"stsc", b"stsz", b"stco"];
    let optional: [&[u8; 4]; 2] = [b"ctts", b"stss"];
    match way {
        Way::WholeFile => wrong_in(stbl, &tables, &optional),
        Way::MoovAlone => wrong_in(stbl, &tables[..4], &optional).or_else(|| not_one_offset_table(stbl)),
    }
}

fn wrong_mdia(mdia: &Atom, way: Way) -> Option<String> {
    // "mdhd, hdlr and minf in mdia"
    let wrong = wrong_in(mdia, &[b"mdhd", b"hdlr", b"minf"], &[]);
    // "stbl in minf"; document 02: "one 'dinf' container in minf, one read leaf 'dref' in it"
    let wrong = wrong.or_else(|| inside(mdia, b"minf", |minf| wrong_in(minf, &[b"stbl", b"dinf"], &[])));
    let in_dinf = |dinf: &Atom| wrong_in(dinf, &[b"dref"], &[]);
    let wrong = wrong.or_else(|| inside(mdia, b"minf", |minf| inside(minf, b"dinf", in_dinf)));
    wrong.or_else(|| inside(mdia, b"minf", |minf| inside(minf, b"stbl", |stbl| wrong_stbl(stbl, way))))
}

fn wrong_trak(trak: &Atom, way: Way) -> Option<String> {
    // "tkhd and mdia in trak"; "edts in trak"
    wrong_in(trak, &[b"tkhd", b"mdia"], &[b"edts"])
        // "elst in edts"
        .or_else(|| inside(trak, b"edts", |edts| wrong_in(edts, &[b"elst"], &[])))
        .or_else(|| inside(trak, b"mdia", |mdia| wrong_mdia(mdia, way)))
}

fn wrong_moov(moov: &Atom, way: Way) -> Option<String> {
    // "mvhd in moov"
    if let Some(wrong) = wrong_in(moov, &[b"mvhd"], &[]) {
        return Some(wrong);
    }
    let traks = of_kind(&moov.children, b"trak");
    let said = |(at, trak): (usize, &&Atom)| Some(format!("{}: {}", trak_name(at, trak), wrong_trak(trak, way)?));
    traks.iter().enumerate().find_map(said)
}

/// "an atom is absent or occurs too often"
pub fn refused_3(file: &[Atom], way: Way) -> Option<String> {
    let moovs = of_kind(file, b"moov");
    // "moov in the file"
    wrong_count(TOP, file, &[b"moov"], &[]).or_else(|| moovs.into_iter().find_map(|moov| wrong_moov(moov, way)))
}
