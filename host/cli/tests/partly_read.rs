//! Films that are read in part are not called whole, and nothing is written over a film.
mod common;

use common::{run, Folder, HOSES};
use reference::film::atom;
use std::fs;

/// The film of two hoses with a fragment after it, or with an mvex alone.
fn two_hoses(with: &str) -> Vec<u8> {
    let mut film = reference::hoses::two_hoses();
    match with {
        "mvex" => film.push("moov", atom("mvex", &[])),
        _ => film.push("", atom("moof", &[])),
    }
    film.bytes()
}

#[test]
fn the_quay_film_profile_of_a_part() {
    let folder = Folder::new("quay-part");
    let announced = "it announces fragments, and none is in this file";
    for (with, why) in [("mvex", announced), ("moof", "what lies in fragments was not judged")] {
        let film = folder.file(format!("{with}.mov"), &two_hoses(with));
        let film = film.to_str().unwrap();
        let ran = run(&["check-quay", film]);
        let words = format!("what was read keeps the quay film profile; the film was not judged whole: {why}\n");
        assert_eq!((ran.out, ran.status), (words, 1));
        let json = run(&["check-quay", film, "--json"]);
        assert!(json.out.contains("\"fragmented\":true,\"keeps\":null,"), "{json:?}");
        let table = run(&["check-quay", film, HOSES]);
        assert!(
            table.out.contains("not judged whole") && table.out.contains("keeps it") && table.status == 1,
            "{table:?}"
        );
    }
    let ran = run(&["check-quay", HOSES, "--leave-out", "track=2"]);
    let words = "what was read keeps the quay film profile; the film was not judged whole: track 2 left out\n";
    assert_eq!((ran.out.as_str(), ran.status), (words, 1));
    assert_eq!(run(&["check-quay", HOSES]).status, 0);
}

#[test]
fn a_hose_that_is_left_out_does_not_add_up() {
    let folder = Folder::new("check-part");
    let slip = folder.path("1.slip");
    let slip = slip.to_str().unwrap();
    assert_eq!(run(&["slip", HOSES, "1", "-o", slip]).status, 0);
    let ran = run(&["check", HOSES, slip, "--leave-out", "track=2"]);
    assert!(ran.out.ends_with("every slip is good, and the film does not add up: track 2 was left out\n"), "{ran:?}");
    assert_eq!(ran.status, 1);
    assert!(run(&["check", HOSES, slip, "--leave-out", "track=2", "--json"]).out.contains("\"all_good\":false"));
    // A film that only announces fragments may be cut off.
    let film = folder.file("mvex.mov", &two_hoses("mvex"));
    let ran = run(&["check", film.to_str().unwrap(), slip]);
    assert!(
        ran.out.ends_with("the film does not add up: it announces fragments, and none is in this file\n"),
        "{ran:?}"
    );
}

#[test]
fn nothing_is_written_over_a_film() {
    let folder = Folder::new("kept-films");
    let other = folder.file("other.mov", &two_hoses("moof"));
    let name = other.to_str().unwrap();
    let slip = run(&["slip", HOSES, "1", "-o", name]);
    let words = format!("chaldoref: {name}: this is a film, and no slip is written over it; name another OUT\n");
    assert!(slip.err.ends_with(&words) && slip.status == 2, "{slip:?}");
    let compact = run(&["compact", HOSES, "-o", name]);
    assert_eq!(
        (compact.err, compact.status),
        (format!("chaldoref: {name}: this is another film; name another OUT\n"), 2)
    );
    assert_eq!(fs::read(&other).unwrap(), two_hoses("moof"));
    // What was written before is written again.
    let again = folder.path("again.mov");
    for _ in 0..2 {
        assert_eq!(run(&["compact", HOSES, "-o", again.to_str().unwrap()]).status, 0);
    }
}
