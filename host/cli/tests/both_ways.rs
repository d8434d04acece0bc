//! Of a film in a file the tables alone are read, and of one on standard input the whole: the answers are the same.
mod common;

use common::{program, run_in, Folder};
use reference::film::{atom, file, w_movie, w_track, Movie, Node, Size, Track};
use reference::made::{moov_last, spoiled, w_with};
use std::fs::{self, File};
use std::os::unix::fs::FileExt;

/// Every command and option that asks about a film.
const LINES: [&str; 26] = [
    "tracks FILM",
    "tracks FILM --json",
    "sample FILM 1 2",
    "sample FILM 1 2 --json",
    "sample FILM 1 2 --bytes",
    "at FILM 1 0",
    "at FILM 1 0.04s --json",
    "map FILM 1 0",
    "map FILM 1 60 --json",
    "stretch FILM 1",
    "stretch FILM 2 --json",
    "stretch FILM 1 0 25 --bytes",
    "stretch FILM 2 0 0.1s --bytes",
    "slip FILM 1",
    "slip FILM 2 --json",
    "slip FILM 1 -o -",
    "features FILM 1",
    "features FILM 2 avvb --json",
    "profile FILM",
    "profile FILM 1 --json",
    "check-profile FILM 1",
    "check-profile FILM 2 --json",
    "check-quay FILM",
    "check-quay FILM --json",
    "check FILM w.slip",
    "check FILM w.slip --json",
];

/// Runs a command line about a film in the folder: what it writes to both streams, and its status.
fn run(folder: &Folder, line: &str, film: &str) -> (Vec<u8>, String, Option<i32>) {
    let words: Vec<&str> = line.split(' ').map(|word| if word == "FILM" { film } else { word }).collect();
    let standard_input = File::open(folder.path("x.mov")).unwrap();
    let output = program(&words).current_dir(folder.path("")).stdin(standard_input).output().unwrap();
    (output.stdout, String::from_utf8(output.stderr).unwrap(), output.status.code())
}

/// Puts every question to a film both ways. Answers how many are not refused.
fn compare(folder: &Folder, name: &str, film: &[u8]) -> usize {
    folder.file("x.mov", film);
    let mut answered = 0;
    for line in LINES {
        let (mut out, err, status) = run(folder, line, "x.mov");
        if line.ends_with("--json") {
            out = String::from_utf8(out).unwrap().replacen("\"x.mov\"", "\"-\"", 1).into_bytes();
        }
        let by_tables = (out, err.replace("x.mov:", "standard input:"), status);
        assert!(by_tables == run(folder, line, "-"), "{name}: {line}");
        answered += usize::from(status == Some(0));
    }
    answered
}

fn folder(name: &str) -> Folder {
    let folder = Folder::new(name);
    folder.file("w.slip", b"01 01 D8 04 00 78 02 E8 07 96 01 84 07 46\n");
    folder
}

/// The films of a folder of the repository, by name.
fn films_in(path: &str) -> Vec<(String, Vec<u8>)> {
    let files = fs::read_dir(format!("../../{path}")).unwrap().map(|entry| entry.unwrap().path());
    let films = files.filter(|file| file.extension().is_some_and(|end| end == "mov"));
    films.map(|file| (file.to_str().unwrap().into(), fs::read(&file).unwrap())).collect()
}

#[test]
fn stored_films() {
    let folder = folder("both-stored");
    let films = ["films", "crates/hoses_example/data", "crates/listing/data", "crates/question_vectors/data"];
    let films: Vec<_> = films.iter().flat_map(|path| films_in(path)).collect();
    assert!(films.len() > 40);
    let answered: usize = films.iter().map(|(name, film)| compare(&folder, name, film)).sum();
    assert!(answered > 10 * films.len());
}

/// Films that are refused and explained, and films that are warned of.
#[test]
fn films_with_something_to_say() {
    let folder = folder("both-made");
    let film_of = |track: Track| Movie { tracks: vec![track], ..w_movie() }.file_of(4096);
    for (number, name, film) in spoiled(&w_track(), film_of) {
        assert_eq!(compare(&folder, name, &film.bytes()), 0, "{number}");
    }
    let mut fragmented = film_of(w_track());
    fragmented.insert_after("mdat", atom("moof", &[7; 40]));
    let mut extended = film_of(w_track());
    extended.push("moov", atom("mvex", &[0; 32]));
    let shifted = film_of(w_with(|track| track.ctts = Some(vec![(4, 24)])));
    let stored_121 = film_of(w_with(|track| track.duration = 121));
    for film in [fragmented, extended, shifted, stored_121, moov_last()] {
        assert!(compare(&folder, "warned of", &film.bytes()) > 5);
    }
    let film = film_of(w_track()).bytes();
    for cut in [0, 7, 8, 300, film.len() - 1] {
        assert_eq!(compare(&folder, "cut", &film[..cut]), 0);
    }
}

/// A film of 1.9 GB, nearly all of it a hole in its file. Standard input would take long, so W's answers stand for its own.
#[test]
fn a_long_film() {
    let folder = Folder::new("long");
    let path = folder.file("long.mov", &[]);
    let track = w_with(|track| track.stco = vec![1_800_000_000, 900]);
    let moov = Movie { tracks: vec![track], ..w_movie() }.moov().bytes();
    let begin = 1_900_000_000 - moov.len() as u64;
    let mdat = file(vec![Node { size: Size::WideSays(begin), ..atom("mdat", &[]) }]).bytes();
    let film = File::options().write(true).open(&path).unwrap();
    for (bytes, place) in [(&mdat[..], 0), (&[b'x'; 70], 900), (&[b'y'; 150], 1_800_000_000), (&moov, begin)] {
        film.write_all_at(bytes, place).unwrap();
    }
    let ask = |line: &str| run_in(&folder, line).out;
    fs::copy("../../films/w.mov", folder.path("w.mov")).unwrap();
    let tracks = ask("tracks w.mov").replace("4096 bytes", "1900000000 bytes");
    assert_eq!(ask("tracks long.mov"), tracks);
    assert_eq!(ask("features long.mov 1"), ask("features w.mov 1"));
    let pairs = "    offset  length\n1800000100      50\n       900      70\n2 ranges, 120 bytes\n";
    assert!(ask("stretch long.mov 1 24 73").starts_with(pairs));
    assert_eq!(ask("stretch long.mov 1 24 73 --bytes"), "y".repeat(50) + &"x".repeat(70));
    assert_eq!(ask("sample long.mov 1 4 --bytes"), "x".repeat(70));
    let slip = folder.path("long.slip");
    ask(&format!("slip long.mov 1 -o {}", slip.to_str().unwrap()));
    assert!(ask("check long.mov long.slip").ends_with("every slip is good, and every track adds up\n"));
}
