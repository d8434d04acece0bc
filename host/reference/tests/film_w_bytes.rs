//! The bytes that the proofs of film W are about, in crates/film_w/specs/Bytes.antt, are those that the reference makes and those of films/w.mov.
use reference::film::w;
use std::collections::HashMap;

const BYTES: &str = include_str!("../../../crates/film_w/specs/Bytes.antt");
const FILE: &[u8] = include_bytes!("../../../films/w.mov");

/// A number, `[]`, `replicate count byte`, `places_from first count`, or the name of a definition above.
fn term(text: &str, known: &HashMap<&str, Vec<u8>>) -> Vec<u8> {
    let words: Vec<&str> = text.split_whitespace().collect();
    let number = |i: usize| words[i].parse::<usize>().unwrap();
    match words[..] {
        ["[]"] => Vec::new(),
        ["replicate", _, byte] => vec![byte.parse().unwrap(); number(1)],
        ["places_from", _, _] => (number(1)..).take(number(2)).map(|i| u8::try_from(i % 251).unwrap()).collect(),
        [name] => known.get(name).cloned().unwrap_or_else(|| vec![name.parse().unwrap()]),
        _ => panic!("not read: {text}"),
    }
}

#[test]
fn the_proofs_have_film_w() {
    let code: Vec<&str> = BYTES.lines().filter(|line| !line.starts_with("--")).collect();
    let code = code.join("\n");
    let mut known = HashMap::new();
    for definition in code.split("abbrev pub ").skip(1) {
        let (name, rest) = definition.split_once(" : ").unwrap();
        if let Some(value) = rest.trim_start_matches("List ℕ\n").strip_prefix(&format!("{name} =")) {
            let bytes =
                value.split("++").flat_map(|part| part.split('∷')).flat_map(|text| term(text, &known)).collect();
            known.insert(name, bytes);
        }
    }
    assert_eq!(known.len(), 18);
    // Thousands of bytes are not shown.
    assert!(known["bytes"] == w().bytes());
    assert!(known["bytes"] == FILE);
}
