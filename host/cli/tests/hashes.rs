//! Hashes of the film's bytes that are kept beside slips.
mod common;

use common::{run_in, words, Folder, Ran, HOSES};
use std::fs;
use std::process::Command;

/// A folder with a film in it.
fn desk(name: &str) -> Folder {
    let folder = Folder::new(name);
    folder.file("film.mov", &fs::read(format!("../../{HOSES}")).unwrap());
    folder
}

const GOOD: &str = "the pictures' bytes have the sha256 that is kept beside each good slip";
const NOTE: &str =
    "slips say where the film lies and do not vouch for the pictures' bytes; slip --sha256 keeps their hash";

/// The last lines of a report but the very last, and the verdict on its first slip.
fn report(ran: &Ran) -> (String, String) {
    let lines: Vec<&str> = ran.out.lines().collect();
    let verdict = lines[1].split("  ").last().unwrap_or_default();
    (verdict.trim().to_string(), lines[lines.len() - 2].to_string())
}

#[test]
fn a_hash_is_kept_and_compared() {
    let folder = desk("hash");
    let filed = run_in(&folder, "slip film.mov 2 0 144 -o 2.slip --sha256");
    assert!(filed.err.ends_with("chaldoref: the sha256 of the film's bytes is in 2.slip.sha256\n"), "{}", filed.err);
    let kept = fs::read_to_string(folder.path("2.slip.sha256")).unwrap();
    assert!(kept.len() == 68 && kept.ends_with("  -\n"), "{kept}");
    let json = run_in(&folder, "slip film.mov 2 0 144 --sha256 --json").out;
    assert!(json.ends_with(&format!(",\"warnings\":[],\"sha256\":\"{}\"}}\n", &kept[..64])), "{json}");
    let checked = run_in(&folder, "check film.mov 2.slip");
    assert_eq!(report(&checked), ("good, and so is its sha256".into(), GOOD.into()), "{}", checked.out);
    assert!(run_in(&folder, "check film.mov 2.slip --json").out.contains("\"reason\":null,\"sha256\":true,"));
    // A slip without a hash beside it is good, and the report says what that means.
    run_in(&folder, "slip film.mov 1 0 144 -o 1.slip");
    let both = run_in(&folder, "check film.mov 1.slip 2.slip");
    assert_eq!((report(&both), both.status), (("good".into(), NOTE.into()), 0));
}

/// coreutils checks the same file.
#[test]
fn coreutils_take_the_file() {
    let folder = desk("coreutils");
    run_in(&folder, "slip film.mov 2 24 96 -o 2.slip --sha256");
    let line = "\"$0\" stretch film.mov 2 24 96 --bytes 2> /dev/null | sha256sum -c 2.slip.sha256";
    let mut shell = Command::new("sh");
    shell.args(["-c", line, env!("CARGO_BIN_EXE_chaldoref")]).current_dir(folder.path(""));
    assert_eq!(String::from_utf8(shell.output().unwrap().stdout).unwrap(), "-: OK\n");
}

#[test]
fn other_pictures_are_told() {
    let folder = desk("other-pictures");
    run_in(&folder, "slip film.mov 2 0 144 -o 2.slip --sha256");
    let mut film = fs::read(folder.path("film.mov")).unwrap();
    let place = film.windows(16).position(|bytes| bytes == b"hose 2 picture 3").unwrap();
    film[place + 15] = b'9';
    folder.file("film.mov", &film);
    let checked = run_in(&folder, "check film.mov 2.slip");
    let wrong = "not good: 2.slip.sha256 is not the sha256 of the film's bytes: the pictures were changed, or it is of another slip";
    assert_eq!((report(&checked).0, checked.status), (wrong.into(), 1));
    let json = run_in(&folder, "check film.mov 2.slip --json").out;
    assert!(
        json.contains("\"good\":false,\"fault\":\"sha256\",\"place\":null,\"reason\":\"2.slip.sha256 is not"),
        "{json}"
    );
    // A file that has no hash, and a folder in its place.
    folder.file("2.slip.sha256", b"no hash\n");
    assert_eq!(report(&run_in(&folder, "check film.mov 2.slip")).0, "not good: 2.slip.sha256 has no line of sha256sum");
    fs::remove_file(folder.path("2.slip.sha256")).unwrap();
    fs::create_dir(folder.path("2.slip.sha256")).unwrap();
    let checked = run_in(&folder, "check film.mov 2.slip");
    assert_eq!(report(&checked).0, "not good: 2.slip.sha256 cannot be read: Is a directory");
}

#[test]
fn nothing_is_lost() {
    let folder = desk("hash-losses");
    run_in(&folder, "slip film.mov 2 0 96 -o 2.slip --sha256");
    let earlier = fs::read(folder.path("2.slip.sha256")).unwrap();
    // Another slip in its place makes the hash stale, which is told.
    let ran = run_in(&folder, "slip film.mov 2 0 144 -o 2.slip");
    let stale = "chaldoref: warning: 2.slip.sha256 is of an earlier slip: write it anew with --sha256, or remove it\n";
    assert!(ran.err.ends_with(stale) && ran.status == 0, "{}", ran.err);
    assert_eq!(fs::read(folder.path("2.slip.sha256")).unwrap(), earlier);
    assert_eq!(run_in(&folder, "check film.mov 2.slip").status, 1);
    // The film is not written over, by neither name.
    let film = fs::read(folder.path("film.mov")).unwrap();
    folder.file("x.sha256", &film);
    let ran = run_in(&folder, "slip x.sha256 2 0 144 -o x --sha256");
    assert!(ran.err.ends_with("chaldoref: x.sha256: this is the film itself\n") && ran.status == 2, "{}", ran.err);
    assert_eq!((fs::read(folder.path("x.sha256")).unwrap(), folder.path("x").exists()), (film, false));
    let lines = words("slip film.mov 2 0 144 -o none/2.slip --sha256");
    assert_eq!(run_in(&folder, &lines.join(" ")).status, 2);
}
