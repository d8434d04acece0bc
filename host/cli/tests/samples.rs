//! The samples of a track, one after the other.
mod common;

use common::{answers, program, refuses, run, run_on, words, Folder, Ran};
use reference::film::{self, w_movie, w_track};
use reference::made::empty_track;
use reference::maker::{limits, Random};
use std::io::Read;
use std::process::Stdio;
use std::time::Instant;

const HEADING: &str = "sample  decode  hh:mm:ss.mmm  duration  composition  sync  description  chunk  offset  size\n";

/// The lines of W's four samples.
const W: [&str; 4] = [
    "     1       0  00:00:00.000        24            0  yes             1      1    1000   100\n",
    "     2      24  00:00:00.040        24           24  yes             1      1    1100    50\n",
    "     3      48  00:00:00.080        24           48  yes             1      1    1150     0\n",
    "     4      72  00:00:00.120        48           72  yes             1      2     900    70\n",
];

/// A film of one track.
fn film_of(track: film::Track) -> Vec<u8> {
    film::Movie { tracks: vec![track], ..w_movie() }.file_of(4096).bytes()
}

#[test]
fn for_people() {
    let of = |lines: &[&str]| HEADING.to_string() + &lines.concat();
    answers("samples films/w.mov 1", &of(&W));
    answers("samples films/w.mov 1 1 4", &of(&W));
    answers("samples films/w.mov 1 3", &of(&W[2..]));
    answers("samples films/w.mov 1 2 3", &of(&W[1..3]));
    answers("samples films/w.mov 1 4 4", &of(&W[3..]));
}

/// Each is the line that `sample` prints of it alone.
#[test]
fn as_sample_has_them() {
    for (n, line) in (1..).zip(W) {
        answers(&format!("sample films/w.mov 1 {n}"), &(HEADING.to_string() + line));
        let document = run(&words(&format!("sample films/w.mov 1 {n} --json"))).out;
        answers(&format!("samples films/w.mov 1 {n} {n} --json"), &document);
    }
    let all = run(&words("samples films/w.mov 1 --json"));
    assert_eq!((all.out.lines().count(), all.status), (4, 0));
}

#[test]
fn comma_separated() {
    let heading = "sample,decode,duration,composition,sync,description,chunk,offset,size\n";
    answers(
        "samples films/w.mov 1 --csv",
        &format!("{heading}1,0,24,0,1,1,1,1000,100\n2,24,24,24,1,1,1,1100,50\n3,48,24,48,1,1,1,1150,0\n4,72,48,72,1,1,2,900,70\n"),
    );
    let film = film_of(film::Track { ctts: Some(vec![(4, -7)]), stss: Some(vec![2]), ..w_track() });
    let out = format!("{heading}1,0,24,-7,0,1,1,1000,100\n2,24,24,17,1,1,1,1100,50\n");
    assert_eq!(run_on(&film, &["samples", "-", "1", "1", "2", "--csv"]), Ran { out, err: String::new(), status: 0 });
}

#[test]
fn outside() {
    let refused =
        "chaldoref: films/w.mov: refused 15: the sample number is not in 1 to N, or the time or stretch lies outside\n";
    let numbers = format!("{refused}chaldoref: hint: track 1 has the samples 1 to 4\n");
    for range in ["0", "5", "0 4", "1 5", "1 0", "5 5", "4294967295", "1 4294967295"] {
        refuses(&format!("samples films/w.mov 1 {range}"), &numbers);
    }
    for option in ["", "--csv"] {
        let reversed = format!("{refused}chaldoref: hint: sample 3, the first, is past sample 2, the last\n");
        refuses(&format!("samples films/w.mov 1 3 2 {option}"), &reversed);
    }
    refuses(
        "samples films/w.mov 7 0",
        "chaldoref: films/w.mov: refused 14: no track has that ID\nchaldoref: hint: the film has track 1\n",
    );
    let document = run(&words("samples films/w.mov 1 5 --json"));
    assert!(document.out.starts_with("{\"format\":1,\"file\":\"films/w.mov\",\"refused\":15,"), "{}", document.out);
    assert_eq!((document.out.lines().count(), document.status), (1, 1));
}

#[test]
fn a_track_without_samples() {
    let film = film_of(empty_track(1));
    let out = HEADING.to_string();
    assert_eq!(run_on(&film, &["samples", "-", "1"]), Ran { out, err: String::new(), status: 0 });
    assert_eq!(run_on(&film, &["samples", "-", "1", "--json"]).out, "");
    let refused = run_on(&film, &["samples", "-", "1", "1"]);
    assert!(refused.err.ends_with("chaldoref: hint: track 1 has no samples\n"), "{}", refused.err);
}

/// Columns are as wide as the greatest number that can come, so that they stay where they are.
#[test]
fn columns_stay_in_their_places() {
    let film = limits::limit(&mut Random::new(1), limits::FILMS - 1);
    let folder = Folder::new("columns");
    let name = folder.file("limit.mov", &film);
    let name = name.to_str().unwrap();
    for track in run(&["tracks", name]).out.lines().skip(1).filter_map(|line| line.split_whitespace().next()) {
        let ran = run(&["samples", name, track]);
        let widths: Vec<usize> = ran.out.lines().map(str::len).collect();
        assert!(widths.windows(2).all(|pair| pair[0] == pair[1]), "track {track}");
    }
}

/// Whoever reads the first lines alone ends the program, quietly and at once.
#[test]
fn a_closed_pipe_ends_it() {
    let film = limits::limit(&mut Random::new(1), 0);
    let folder = Folder::new("closed-pipe");
    let name = folder.file("limit.mov", &film);
    let begin = Instant::now();
    for option in ["--csv", "--json"] {
        let mut child =
            program(&["samples", name.to_str().unwrap(), "1", option]).stdout(Stdio::piped()).spawn().unwrap();
        let mut first = [0; 10];
        child.stdout.take().unwrap().read_exact(&mut first).unwrap();
        let output = child.wait_with_output().unwrap();
        assert_eq!((output.status.code(), output.stderr.len()), (Some(0), 0));
    }
    assert!(begin.elapsed().as_secs() < 60);
}
