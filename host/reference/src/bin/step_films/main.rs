//! The films of crates/step_vectors and its lines, from the reference: those of crates/question_vectors whose tracks are short.
//!
//! Writes each film to the folder that is its first argument, and the names, one to a line, to the file that is its second: each film, and the next
//! one after it, on which its positions are used too. The lines go to standard output.
#[allow(dead_code)]
#[path = "../question_films/asks.rs"]
mod asks;
#[allow(dead_code)]
#[path = "../question_films/base.rs"]
mod base;
#[path = "../question_films/paper.rs"]
mod paper;
#[path = "../question_films/refused.rs"]
mod refused;
#[path = "../question_films/samples.rs"]
mod samples;
#[path = "../question_films/tracks.rs"]
mod tracks;

use base::Films;
use reference::movie::{sample, start_at, step, Position, Step};

/// As many samples as a track has at most.
const SHORT: u32 = 40;

/// The samples of a track, 0 where sample 1 is refused; past `SHORT` they are not counted on.
fn count(film: &[u8], id: u32) -> u32 {
    (1..=SHORT + 1).take_while(|n| sample(film, id, *n).0 == 0).count() as u32
}

/// A line for each step from a position to the end, and one more step.
fn walk(film: &[u8], from: Position) {
    let mut position = from;
    while let Step::Next(s, next) = step(film, position) {
        println!(
            "    {} {} {} {} {} {} {} {}",
            s.decode_time,
            s.duration,
            s.composition_time,
            s.is_sync as u32,
            s.description_id,
            s.chunk,
            s.offset,
            s.size
        );
        position = next;
    }
    assert_eq!(step(film, position), Step::Done);
    println!("    done");
}

fn started(film: &[u8], id: u32, n: u32) {
    print!("  track {id} from {n}");
    let (refused, position) = start_at(film, id, n);
    if refused != 0 {
        println!(" refused {refused}");
        return;
    }
    println!();
    walk(film, position);
    println!("    ends elsewhere");
}

fn track(film: &[u8], id: u32) {
    let n = count(film, id);
    started(film, id, 0);
    started(film, id, 1);
    if 1 < n {
        started(film, id, n / 2 + 1);
        started(film, id, n);
    }
    started(film, id, n + 1);
}

fn main() {
    let arguments: Vec<String> = std::env::args().collect();
    let [_, folder, names] = &arguments[..] else {
        panic!("step_films FOLDER NAMES");
    };
    let mut films = Films::new();
    paper::films(&mut films);
    samples::films(&mut films);
    tracks::films(&mut films);
    refused::films(&mut films);
    films.list.retain(|film| (1..=3).all(|id| count(&film.bytes, id) <= SHORT));
    let name = |i: usize| {
        let film = &films.list[i % films.list.len()];
        format!("{}-{}.mov", film.number, film.name)
    };
    let mut args = String::new();
    for (i, film) in films.list.iter().enumerate() {
        std::fs::write(format!("{folder}/{}", name(i)), &film.bytes).unwrap();
        args += &format!("{}\n{}\n", name(i), name(i + 1));
        println!("{}", name(i));
        for id in 1..=3 {
            track(&film.bytes, id);
        }
    }
    std::fs::write(names, args).unwrap();
}
