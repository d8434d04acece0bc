//! The films of crates/movie_vectors and its lines, from the reference.
//!
//! Writes each film to the folder that is its first argument, and the names, one to a line, to the file that is its second. The lines go to
//! standard output. A film's name begins with the number that its maker means it to be refused with by default: the reference must agree, so that a film
//! which is refused for another reason than its name says is not kept by mistake.
//!
//! Not among the films: one of over 2,147,483,647 bytes (refused 1), since the program lends 65,536 bytes.
mod accepted;
mod base;
mod lines;
mod orders;
mod paper;
mod rules;

use base::Films;
use reference::movie::{refusal, strict_refusal};

fn main() {
    let arguments: Vec<String> = std::env::args().collect();
    let [_, folder, names] = &arguments[..] else {
        panic!("movie_films FOLDER NAMES");
    };
    let mut films = Films::new();
    paper::films(&mut films);
    accepted::films(&mut films);
    rules::films(&mut films);
    orders::films(&mut films);

    let mut args = String::new();
    for film in films.in_order() {
        let name = format!("{}-{}.mov", film.number, film.name);
        assert_eq!((refusal(&film.bytes), strict_refusal(&film.bytes)), (film.number, film.strict), "{name}");
        assert!(film.bytes.len() < 65_536, "{name}");
        std::fs::write(format!("{folder}/{name}"), &film.bytes).unwrap();
        args += &format!("{name}\n");
        print!("{}", lines::lines(&name, &film.bytes));
    }
    std::fs::write(names, args).unwrap();
}
