//! The sets of crates/tables_vectors and its lines, from the tables written out.
//!
//! Writes each set to the folder that is its first argument, and the names, one to a line, to the file that is its second. The lines go to
//! standard output. A film of the same tables must be refused with the number that the set's name begins with, so that a set whose tables say
//! another thing than its name is not kept by mistake.
mod asks;
mod lists;
mod rules;
mod sets;

use asks::Lines;
use reference::film::*;
use reference::movie::strict_refusal;
use sets::{Set, Sets};

/// The number with which a film of these tables is refused.
fn number(set: &Set) -> u32 {
    let total: u64 = if rules::contradict(&set.track) { 0 } else { lists::durations(&set.track).iter().sum() };
    let duration = u32::try_from(total).unwrap_or(0);
    let track = Track { duration, ..set.track.clone() };
    strict_refusal(&Movie { scale: set.movie, duration, profile: None, tracks: vec![track] }.file_of(2_000_000).bytes())
}

/// The atoms of a set: its tables, and those that ask.
fn atoms(set: &Set, lines: &Lines) -> Node {
    let track = &set.track;
    let mut atoms = Vec::new();
    if !set.bare {
        atoms.push(stts(&track.stts));
        atoms.extend(track.ctts.iter().map(|entries| ctts(entries)));
        atoms.extend([stsc(&track.stsc), stsz(&track.stsz), stco(&track.stco)]);
        atoms.extend(track.stss.iter().map(|samples| stss(samples)));
        atoms.extend(track.edits.iter().map(|edits| elst(edits)));
    }
    atoms.extend(lines.list.iter().map(|line| line.node()));
    file(atoms)
}

fn main() {
    let arguments: Vec<String> = std::env::args().collect();
    let [_, folder, names] = &arguments[..] else {
        panic!("tables FOLDER NAMES");
    };
    let mut args = String::new();
    for set in Sets::new().list {
        let name = format!("{}-{}", set.number, set.name);
        assert_eq!(number(&set), set.number, "{name}");
        assert!(!args.lines().any(|other| other == name), "{name} twice");
        let lines = Lines::new(&set.track, set.movie);
        let bytes = atoms(&set, &lines).bytes();
        assert!(bytes.len() <= 65_536, "{name}");
        std::fs::write(format!("{folder}/{name}"), bytes).unwrap();
        args += &format!("{name}\n");
        println!("{name}");
        for line in lines.list {
            println!("{}", line.text);
        }
    }
    std::fs::write(names, args).unwrap();
}
