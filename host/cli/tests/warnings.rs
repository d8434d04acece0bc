//! Films that say less than they show: what is warned of, and that the answers are the same.
mod common;

use common::{program, run, run_on, Folder, Ran, W};
use reference::film::{atom, w_movie, Movie, Node, Track};
use reference::made::{empty_track, w_with};

const FRAGMENTED: &str = "the film is fragmented: 0 bytes of film in 1 fragment are not read; \
                          keep it, and ask the camera's maker for films without fragments";
const ANNOUNCED: &str =
    "the film announces fragments (mvex), and none is in this file: it may be cut off; compare it with the original";
const CTTS: &str = "track 1 has a ctts: a stretch is of decode time, and what is shown in that time may differ";

fn film_of(tracks: Vec<Track>) -> Node {
    Movie { tracks, ..w_movie() }.file_of(4096)
}

/// The run's answer is as it would be without the warning, which standard error has.
#[track_caller]
fn warns(ran: Ran, out: &str, words: &str) {
    let err = format!("chaldoref: warning: {words}\n");
    assert_eq!(ran, Ran { out: out.into(), err, status: 0 });
}

#[test]
fn fragmented_films() {
    let listed = "id  subtype  scale  total  hh:mm:ss.mmm  samples  chunks  edits  stored\n \
                   1  vide       600      0  00:00:00.000        0       0      0       0\n\
                  movie scale 600, stored duration 120 (00:00:00.200)\n";
    let length = |film: &Node| film.bytes().len();
    let below = |film: &Node| {
        format!("not proved: the file has {} bytes\nnot proved: track 1 has no description\n", length(film))
    };
    let document = |film: &Node, warnings: &str| {
        format!(
            "{{\"format\":1,\"file\":\"-\",\"fragmented\":true,\"movie\":{{\"scale\":600,\"stored\":120,\"stored_seconds\":0.2}},\
             \"tracks\":[{{\"id\":1,\"subtype\":\"vide\",\"scale\":600,\"total\":0,\
             \"total_seconds\":0,\"samples\":0,\"chunks\":0,\
             \"edits\":0,\"stored\":0,\"stored_seconds\":0}}],\"warnings\":[{warnings}],\"unproved\":{{\"length\":{},\
             \"tracks\":[{{\"id\":1,\"formats\":[],\"width\":null,\"height\":null,\"handler_name\":null}}]}}}}\n",
            length(film)
        )
    };
    let changes: [(&str, &dyn Fn(&mut Node)); 4] = [
        (ANNOUNCED, &|film| film.push("moov", atom("mvex", &[0; 32]))),
        (FRAGMENTED, &|film| film.insert_after("mdat", atom("moof", &[0; 16]))),
        (&FRAGMENTED.replace(": 0 ", ": 3572 "), &|film| {
            film.resize("mdat", 3572);
            film.insert_before("moov", atom("moof", &[]));
        }),
        (FRAGMENTED, &|film| {
            film.push("moov", atom("mvex", &[]));
            film.insert_after("mdat", atom("moof", &[]));
        }),
    ];
    for (words, change) in changes {
        let mut film = film_of(vec![empty_track(1)]);
        change(&mut film);
        warns(run_on(&film.bytes(), &["tracks", "-"]), &format!("{listed}{}", below(&film)), words);
        let quoted = format!("\"{words}\"");
        warns(run_on(&film.bytes(), &["tracks", "-", "--json"]), &document(&film, &quoted), words);
    }
    let mut film = film_of(vec![empty_track(1)]);
    film.push("moov", atom("mvex", &[]));
    let beside = run_on(&film.bytes(), &["tracks", W, "-"]);
    assert_eq!((beside.err, beside.status), (format!("chaldoref: warning: standard input: {ANNOUNCED}\n"), 0));
    let plain = film_of(vec![empty_track(1)]);
    let whole = run_on(&plain.bytes(), &["tracks", "-"]);
    assert_eq!(whole, Ran { out: format!("{listed}{}", below(&plain)), err: String::new(), status: 0 });
}

/// W with a fragment of 20 bytes of film after it.
fn partly_read() -> Vec<u8> {
    let mut film = film_of(vec![w_with(|_| ())]);
    film.push("", atom("moof", &[0; 4]));
    film.push("", atom("mdat", &[7; 20]));
    film.bytes()
}

#[test]
fn a_film_that_is_partly_read_does_not_pass_as_whole() {
    let folder = Folder::new("fragments");
    let film = folder.file("x.mov", &partly_read());
    let (film, slip) = (film.to_str().unwrap(), folder.path("x.slip"));
    let slip = slip.to_str().unwrap();
    let words = FRAGMENTED.replace(": 0 ", ": 20 ");
    let warning = format!("chaldoref: warning: {words}\n");
    let filed = run(&["slip", film, "1", "-o", slip]);
    assert!(filed.status == 0 && filed.err.contains(&warning), "{filed:?}");
    let checked = run(&["check", film, slip]);
    assert!(checked.out.contains("does not add up: 20 bytes of film in fragments are not read\n"), "{checked:?}");
    assert!(!checked.out.contains("  adds up\n"), "{checked:?}");
    assert_eq!((checked.err, checked.status), (warning.clone(), 1));
    let document = run(&["check", film, slip, "--json"]);
    assert!(document.out.contains("\"unread_bytes\":20,\"all_good\":false"), "{document:?}");
    let quay = run(&["check-quay", film]);
    assert!(quay.out.starts_with("rule 6 ") && quay.err == warning, "{quay:?}");
    let empty = {
        let mut film = film_of(vec![]);
        film.push("", atom("moof", &[]));
        film.bytes()
    };
    let quay = run_on(&empty, &["check-quay", "-"]);
    assert!(quay.out.starts_with("rule 1 ") && quay.status == 1, "{quay:?}");
    for line in
        [&["at", film, "1", "0"][..], &["stretch", film, "1"], &["features", film, "1"], &["samples", film, "1"]]
    {
        let ran = run(line);
        assert!(ran.status == 0 && ran.err.contains(&warning), "{ran:?}");
    }
    let counted = run(&["film-return", film, W]);
    let named = format!("chaldoref: warning: {film}: {words}; the film is counted without them\n");
    assert!(counted.out.contains("accepted 2\n"), "{counted:?}");
    assert_eq!((counted.err, counted.status), (named, 1));
    let json = run(&["film-return", film, W, "--json"]).out;
    assert!(json.contains(&format!("\"fragmented\":[\"{film}\"]")), "{json}");
}

#[test]
fn stored_durations_that_are_not_the_total() {
    let film = film_of(vec![w_with(|track| track.duration = 121)]).bytes();
    let words = "track 1 stores the duration 121, and its samples total 120: no slip can be written of this film";
    let listed = "id  subtype  scale  total  hh:mm:ss.mmm  samples  chunks  edits  stored\n \
                   1  vide       600    120  00:00:00.200        4       2      0     121\n\
                  movie scale 600, stored duration 120 (00:00:00.200)\n\
                  not proved: the file has 4096 bytes\nnot proved: track 1 is jpeg, 320 x 240 pixels\n";
    warns(run_on(&film, &["tracks", "-"]), listed, words);
    let json = run_on(&film, &["tracks", "-", "--json"]);
    assert_eq!(json.err, format!("chaldoref: warning: {words}\n"));
    let end = format!("\"stored\":121,\"stored_seconds\":0.20166666666666666}}],\"warnings\":[\"{words}\"],");
    assert!(json.out.contains("\"total\":120,") && json.out.contains(&end), "{}", json.out);
    // Each track that disagrees is told, and no other.
    let tracks = [119, 120, 4_294_967_295].iter().zip(1..);
    let three = tracks.map(|(stored, id)| w_with(|track| (track.id, track.duration) = (id, *stored))).collect();
    let ran = run_on(&film_of(three).bytes(), &["tracks", "-"]);
    let said: Vec<&str> = ran.err.lines().map(|line| line.split(':').nth(2).unwrap()).collect();
    let expected = [
        " track 1 stores the duration 119, and its samples total 120",
        " track 3 stores the duration 4294967295, and its samples total 120",
    ];
    assert_eq!((said, ran.status), (expected.to_vec(), 0));
}

#[test]
fn the_types_elsewhere_are_no_fragments() {
    let mut film = film_of(vec![w_with(|_| ())]);
    film.push("moov", atom("moof", &[]));
    film.push("moov trak", atom("mvex", &[]));
    film.insert_after("moov", atom("mvex", &[]));
    film.insert_after("moov", atom("free", &atom("moof", &[]).bytes()));
    let ran = run_on(&film.bytes(), &["tracks", "-"]);
    let out = run(&["tracks", W]).out.replace("4096 bytes", &format!("{} bytes", film.bytes().len()));
    assert_eq!(ran, Ran { out, err: String::new(), status: 0 });
}

#[test]
fn stretches_of_a_track_with_a_ctts() {
    let folder = Folder::new("ctts");
    // The second track has none.
    let other = w_with(|track| track.id = 2);
    let film = film_of(vec![w_with(|track| track.ctts = Some(vec![(4, 24)])), other]);
    let path = folder.file("ctts.mov", &film.bytes());
    let path = path.to_str().unwrap();
    let ask =
        |command: &str, track: &str, options: &[&str]| run(&[&[command, path, track, "24", "73"], options].concat());
    // W's samples lie where those of both tracks do.
    let plain = |command: &str, options: &[&str]| run(&[&[command, W, "1", "24", "73"], options].concat()).out;
    let told = "chaldoref: track 1, media time 24 to 73 (00:00:00.040 to 00:00:00.121), film time 49 (00:00:00.081)\n";
    for command in ["stretch", "slip"] {
        let told = if command == "slip" { told } else { "" };
        warns(without(ask(command, "1", &[]), told), &plain(command, &[]), CTTS);
        let document = plain(command, &["--json"]).replace("\"warnings\":[]", &format!("\"warnings\":[\"{CTTS}\"]"));
        let document = document.replace(W, path);
        assert!(document.contains(CTTS));
        warns(ask(command, "1", &["--json"]), &document, CTTS);
        let other = told.replace("track 1", "track 2");
        assert_eq!((ask(command, "2", &[]).err, ask(command, "2", &["--json"]).err), (other, String::new()));
    }
    let bytes = program(&["stretch", path, "1", "24", "73", "--bytes"]).output().unwrap();
    assert_eq!(bytes.stderr, format!("{told}chaldoref: warning: {CTTS}\n").as_bytes());
    assert_eq!(bytes.stdout, [&film.bytes()[1100..1150], &film.bytes()[900..970]].concat());
    let slip = folder.path("w.slip");
    warns(without(ask("slip", "1", &["-o", slip.to_str().unwrap()]), told), "", CTTS);
    assert_eq!(std::fs::read(&slip).unwrap().len(), 13);
    // The report of the slip warns too, and so does the sample at a time.
    let checked = run(&["check", path, slip.to_str().unwrap()]);
    let words = "chaldoref: warning: track 1 has a ctts: its slips are of decode time, and what is shown in that time may differ\n";
    assert_eq!(checked.err, words);
    let at = run(&["at", path, "1", "24", "--json"]);
    let words =
        "track 1 has a ctts: the sample is the one at that decode time, and what is shown in that time may differ";
    assert_eq!((at.err, at.out.contains(words)), (format!("chaldoref: warning: {words}\n"), true));
}

/// The run without what it tells first on standard error.
#[track_caller]
fn without(ran: Ran, told: &str) -> Ran {
    Ran { err: ran.err.strip_prefix(told).unwrap().into(), ..ran }
}

#[test]
fn what_is_refused_or_asks_for_no_stretch_has_no_warning() {
    let film = film_of(vec![w_with(|track| track.ctts = Some(vec![(4, 24)]))]).bytes();
    for line in [&["tracks", "-"][..], &["sample", "-", "1", "2"], &["map", "-", "1", "60"]] {
        assert_eq!(run_on(&film, line).err, "", "{line:?}");
    }
    let outside = run_on(&film, &["stretch", "-", "1", "24", "121", "--json"]);
    assert_eq!((outside.status, outside.err.contains("warning")), (1, false));
    let absent = run_on(&film, &["slip", "-", "2", "24", "73"]);
    assert_eq!((absent.status, absent.err.contains("warning")), (1, false));
}
