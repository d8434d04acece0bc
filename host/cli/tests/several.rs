//! Several films at once: each is named above its answer, and the greatest exit status counts.
mod common;

use common::{run, run_on, words, Folder, Ran, HOSES, W};
use reference::film::w;

/// The answers to a command line of which `FILE` is each of the films, under their names.
#[track_caller]
fn answers_each(line: &str, films: &[&str]) {
    let ran = run(&words(&line.replace("FILE", &films.join(" "))));
    let one = |film: &&str| format!("{film}:\n{}\n", run(&words(&line.replace("FILE", film))).out);
    let expected: String = films.iter().map(one).collect();
    assert_eq!(ran, Ran { out: expected, err: String::new(), status: 0 }, "{line}");
}

/// The documents are those of each film alone.
#[track_caller]
fn documents_each(line: &str, films: &[&str]) {
    let ran = run(&words(&line.replace("FILE", &films.join(" "))));
    let expected: String = films.iter().map(|film| run(&words(&line.replace("FILE", film))).out).collect();
    assert_eq!(ran, Ran { out: expected, err: String::new(), status: 0 }, "{line}");
}

#[test]
fn each_film_is_named() {
    let expected = "films/w.mov:\n\
                    id  subtype  scale  total  hh:mm:ss.mmm  samples  chunks  edits  stored\n \
                     1  vide       600    120  00:00:00.200        4       2      0     120\n\
                    movie scale 600, stored duration 120 (00:00:00.200)\n\
                    not proved: the file has 4096 bytes\n\
                    not proved: track 1 is jpeg, 320 x 240 pixels\n\n\
                    films/two-hoses.mov:\n\
                    id  subtype  scale  total  hh:mm:ss.mmm  samples  chunks  edits  stored\n \
                     1  vide       600    144  00:00:00.240        6       3      0     144\n \
                     2  vide       600    144  00:00:00.240        6       3      0     144\n\
                    movie scale 600, stored duration 144 (00:00:00.240)\n\
                    not proved: the file has 1252 bytes\n\
                    not proved: track 1 is jpeg, 320 x 240 pixels, handler name 'Hose camera'\n\
                    not proved: track 2 is jpeg, 320 x 240 pixels, handler name 'Hose camera'\n\n";
    assert_eq!(run(&["tracks", W, HOSES]), Ran { out: expected.into(), err: String::new(), status: 0 });
    for films in [&[W, HOSES][..], &[HOSES, W, W]] {
        for line in [
            "tracks FILE",
            "features FILE 1",
            "features FILE 1 avvb",
            "features FILE 0x1 0x61767662",
            "check-profile FILE 1",
            "check-profile FILE",
            "features FILE",
        ] {
            answers_each(line, films);
            documents_each(&format!("{line} --json"), films);
        }
    }
}

#[test]
fn the_greatest_status_counts() {
    let no_track = "chaldoref: films/w.mov: refused 14: no track has that ID\nchaldoref: hint: the film has track 1\n";
    let ran = run(&["features", W, HOSES, "2", "avvb"]);
    assert_eq!((ran.err.as_str(), ran.status), (no_track, 1));
    // A film without an answer has no name on standard output.
    assert_eq!(ran.out, format!("{HOSES}:\n{}\n", run(&["features", HOSES, "2", "avvb"]).out));
    let ran = run(&["features", HOSES, "none.mov", W, "2"]);
    let none = "chaldoref: none.mov: No such file or directory\n";
    assert_eq!((ran.err, ran.status), (format!("{none}{no_track}"), 2));
    let documents = run(&["tracks", "none.mov", W, "--json"]);
    let names: Vec<bool> = documents
        .out
        .lines()
        .zip(["none.mov", W])
        .map(|(line, name)| line.starts_with(&format!("{{\"format\":1,\"file\":\"{name}\",")))
        .collect();
    assert_eq!((names, documents.status), (vec![true, true], 2));
}

#[test]
fn standard_input_is_one_film() {
    let ran = run_on(&w().bytes(), &["tracks", W, "-"]);
    let tracks = run(&["tracks", W]).out;
    assert_eq!((ran.out, ran.status), (format!("{W}:\n{tracks}\nstandard input:\n{tracks}\n"), 0));
    for line in ["tracks - -", "features - - 1", "features - a - 1 avvb", "read-slip - -"] {
        let ran = run(&words(line));
        assert_eq!((ran.err.lines().next(), ran.status), (Some("chaldoref: standard input can be one file only"), 2));
    }
}

/// Before the last argument a number is the track, and the last one the code.
#[test]
fn films_track_and_code() {
    let first = |line: &str| run(&words(line)).err.lines().next().unwrap().to_string();
    let number = "is a number from 0 to 4294967295, and not";
    // Without a number the last is a film too, unless it is the code of a feature.
    assert_eq!(first("features films/w.mov films/w.mov avvc"), "chaldoref: avvc: No such file or directory");
    assert_eq!(first("features ./avvb"), "chaldoref: ./avvb: No such file or directory");
    assert_eq!(first("features a b 1 avv"), "chaldoref: CODE is four characters, or a number after 0x, and not 'avv'");
    assert_eq!(first("features a b -1"), format!("chaldoref: TRACK {number} '-1'"));
    assert_eq!(
        first("features films/w.mov 1 1000"),
        "chaldoref: films/w.mov: refused 18: the feature cannot be computed"
    );
    // A film whose name is a number.
    let folder = Folder::new("numbers");
    folder.file("7", &w().bytes());
    let ran = common::run_in(&folder, "features 7 7 1");
    assert_eq!(ran.err.lines().next(), Some("chaldoref: CODE is four characters, or a number after 0x, and not '1'"));
    let ran = common::run_in(&folder, "features 7 ./7 1 avvb");
    assert!(ran.out.starts_with("7:\ncode  name ") && ran.out.contains("\n\n./7:\ncode  name "), "{}", ran.out);
    assert_eq!(ran.status, 0);
}

/// A code alone asks every track of every film.
#[test]
fn a_feature_of_every_track() {
    let one = |track: &str| run(&["features", HOSES, track, "vfps"]).out;
    let all = run(&["features", HOSES, "vfps"]);
    assert_eq!((all.out, all.status), (format!("track 1:\n{}track 2:\n{}", one("1"), one("2")), 0));
    let films = run(&["features", W, HOSES, "mvbr"]).out;
    assert!(
        films.starts_with(&format!("{W}:\ntrack 1:\n")) && films.contains(&format!("\n{HOSES}:\ntrack 1:\n")),
        "{films}"
    );
    let json = run(&["features", HOSES, "mabr", "--json"]).out;
    assert_eq!((json.matches("\"code\":\"mabr\"").count(), json.matches("\"code\"").count()), (2, 2), "{json}");
    // A word that is no feature's code is a film's name.
    assert!(run(&["features", W, "nofx"]).err.contains("nofx: No such file or directory"));
}
