//! The films of crates/quay_vectors and its lines, from the reference.
//!
//! Writes each film to the folder that is its first argument, before what is lent the length of its file in 64 bits, 0 where it is lent whole, and the
//! names, one to a line, to the file that is its second. The lines go to standard output. What its maker means a film to be answered is in its name: the
//! reference must agree.
mod films;

use films::{Answer, Films, Lent};
use reference::movie::quay_fault;

/// What the reference answers.
fn answer(lent: &Lent) -> Answer {
    let (number, (rule, id)) = match lent {
        Lent::Whole(film) => quay_fault(film),
        Lent::Alone(film) => quay_fault(film),
    };
    match (number, rule) {
        (0, 0) => Answer::Yes,
        (0, _) => Answer::Breaks(rule, id),
        _ => Answer::Refused(number),
    }
}

fn main() {
    let arguments: Vec<String> = std::env::args().collect();
    let [_, folder, names] = &arguments[..] else {
        panic!("quay_films FOLDER NAMES");
    };
    let mut films = Films::new();
    films.all();

    let mut args = String::new();
    for (expected, name, lent) in &films.list {
        let answer = answer(lent);
        let name = format!("{}-{name}.film", expected.name());
        assert_eq!(answer, *expected, "{name}");
        let bytes = lent.bytes();
        assert!(bytes.len() <= 65_536, "{name}");
        std::fs::write(format!("{folder}/{name}"), bytes).unwrap();
        args += &format!("{name}\n");
        println!("{name}: {}", answer.line());
    }
    std::fs::write(names, args).unwrap();
}
