//! The films of crates/moov_vectors and its lines, from the reference: the moovs of the films of crates/question_vectors, each with the length of its
//! file, and those that only the second way in knows.
//!
//! Writes each film to the folder that is its first argument, the length of its file in 64 bits before its moov, and the names, one to a line, to the
//! file that is its second. The lines go to standard output. A film's name begins with the number that its maker means it to be refused with: the
//! reference must agree.
#[path = "../question_films/all.rs"]
mod all;
#[allow(dead_code)]
#[path = "../question_films/asks.rs"]
mod asks;
#[allow(dead_code)]
#[path = "../question_films/base.rs"]
mod base;
#[path = "../question_films/features.rs"]
mod features;
mod lines;
mod moovs;
#[path = "../question_films/paper.rs"]
mod paper;
#[path = "../question_films/peaks.rs"]
mod peaks;
#[path = "../question_films/profiles.rs"]
mod profiles;
#[path = "../question_films/refused.rs"]
mod refused;
#[path = "../question_films/samples.rs"]
mod samples;
#[path = "../question_films/times.rs"]
mod times;
#[path = "../question_films/tracks.rs"]
mod tracks;

use moovs::Moovs;
use reference::maker::alone::moov_of;
use reference::movie::refusal;

/// The films that are asked questions as whole files; without those that have no moov, which are refused there before anything is asked.
fn whole(moovs: &mut Moovs) {
    for film in &all::films().list {
        if let Some(alone) = moov_of(&film.bytes) {
            moovs.bytes(film.number, &film.name, alone.moov.to_vec(), alone.length);
        }
    }
}

fn main() {
    let arguments: Vec<String> = std::env::args().collect();
    let [_, folder, names] = &arguments[..] else {
        panic!("moov_films FOLDER NAMES");
    };
    let mut moovs = Moovs::new();
    whole(&mut moovs);
    moovs::films(&mut moovs);

    let mut args = String::new();
    for (number, name, film) in &moovs.list {
        let name = format!("{number}-{name}.moov");
        assert_eq!(refusal(film), *number, "{name}");
        assert!(film.moov.len() < 65_528, "{name}");
        std::fs::write(format!("{folder}/{name}"), [&film.length.to_be_bytes(), &film.moov[..]].concat()).unwrap();
        args += &format!("{name}\n");
        print!("{name}\n{}", lines::lines(film));
    }
    std::fs::write(names, args).unwrap();
}
