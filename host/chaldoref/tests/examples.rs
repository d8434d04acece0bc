//! The examples in C and Rust print what the example in Rattle does, on each film that its stored output is about.
mod compiled;

use std::os::unix::fs::FileExt;
use std::path::{Path, PathBuf};
use std::process::Command;

/// The example in Rattle, and the most bytes that it reads. The two others read any film.
const STORED: &str = "../../crates/hoses_example";
const MOST: u64 = 65_536;

/// The files that the example in Rattle is run on, in order; `-` is what it has on standard input.
fn films() -> Vec<PathBuf> {
    let path = |name: &str| if name == "-" { "stdin".to_string() } else { format!("data/{name}") };
    let args = std::fs::read_to_string(format!("{STORED}/args")).unwrap();
    args.lines().map(|name| Path::new(STORED).join(path(name))).collect()
}

/// What a program prints of a film. Its exit status is 1 where it says so, and something is refused.
fn answers(program: &Path, film: &Path, fails: bool) -> String {
    if std::fs::metadata(film).unwrap().len() > MOST {
        return "too long\n".to_string();
    }
    let output = Command::new(program).arg(film).output().unwrap_or_else(|error| panic!("{program:?}: {error}"));
    assert_eq!(String::from_utf8(output.stderr).unwrap(), "");
    let out = String::from_utf8(output.stdout).unwrap();
    let refused = out.lines().any(|line| line.contains("refused "));
    assert_eq!(output.status.code(), Some(i32::from(fails && refused)), "{film:?}: {out}");
    out
}

#[track_caller]
fn prints_the_stored_answers(program: &Path, fails: bool) {
    let answers: String = films().iter().map(|film| answers(program, film, fails)).collect();
    assert_eq!(answers, std::fs::read_to_string(format!("{STORED}/stdout")).unwrap());
}

#[test]
fn in_c() {
    prints_the_stored_answers(&compiled::c("../../examples/c/hoses.c", "hoses-in-c"), true);
}

/// Of a film of any size only the moov is read.
#[test]
fn a_long_film_in_c() {
    let program = compiled::c("../../examples/c/hoses.c", "hoses-of-a-long-film");
    let path = Path::new(env!("CARGO_TARGET_TMPDIR")).join(format!("long-{}.mov", std::process::id()));
    let moov = reference::film::w_movie().moov().bytes();
    let place = 5_000_000_000 - moov.len() as u64;
    let file = std::fs::File::create(&path).unwrap();
    let mdat = [&[0, 0, 0, 1][..], b"mdat", &place.to_be_bytes()].concat();
    file.write_all_at(&mdat, 0).unwrap();
    file.write_all_at(&moov, place).unwrap();
    let output = Command::new(program).arg(&path).output().unwrap();
    std::fs::remove_file(&path).unwrap();
    let out = String::from_utf8(output.stdout).unwrap();
    // The film has no second hose.
    assert_eq!(
        (output.status.code(), out.contains("\nrefused 14\n"), out.contains(": adds up\n")),
        (Some(1), true, true),
        "{out}"
    );
}

#[test]
fn in_rust() {
    // `cargo test` has built it beside the folder of this test.
    let test = std::env::current_exe().unwrap();
    prints_the_stored_answers(&test.ancestors().nth(2).unwrap().join("examples/hoses"), false);
}
