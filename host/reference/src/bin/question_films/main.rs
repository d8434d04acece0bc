//! The films of crates/question_vectors, the questions that they are asked, and its lines, from the reference.
//!
//! Writes each film and its questions to the folder that is its first argument, and the names, one to a line, to the file that is its second:
//! each film with its questions after it. The lines go to standard output. A question is three big-endian 32-bit numbers: its kind, a track ID
//! and the number asked. A film's name begins with the number that its maker means it to be refused with, and its maker may say some of its
//! lines by hand: the reference must agree with both, so that a film which tests another thing than its name says is not kept by mistake.
mod all;
mod asks;
mod base;
mod features;
mod lines;
mod paper;
mod peaks;
mod profiles;
mod refused;
mod samples;
mod times;
mod tracks;

use reference::made::Kept;

fn main() {
    let arguments: Vec<String> = std::env::args().collect();
    let [_, folder, names] = &arguments[..] else {
        panic!("question_films FOLDER NAMES");
    };
    let mut args = String::new();
    for film in all::films().list {
        let name = format!("{}-{}", film.number, film.name);
        let lines = film.asks.iter().map(|ask| lines::line(&film.bytes, ask)).collect();
        let asks: Vec<u8> = film.asks.iter().flat_map(|ask| ask.bytes()).collect();
        assert!(film.bytes.len() < 65_536, "{name}");
        let kept = Kept { name: &name, number: film.number, film: &film.bytes, asks, lines, said: &film.said };
        args += &kept.store(folder);
    }
    std::fs::write(names, args).unwrap();
}
