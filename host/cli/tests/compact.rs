//! `chaldoref compact`: the film with compact tables, beside the film.
mod common;

use common::{program, run, run_in, run_on, Folder, Ran};
use reference::film::{w_track, Track};
use reference::made::movie;
use reference::movie::compact_film;
use std::fs::{self, File};
use std::os::unix::fs::symlink;

/// W's samples with a run for each, in three chunks; a second track is compact already.
fn wasteful() -> Vec<u8> {
    let first = Track {
        stts: vec![(1, 24), (1, 24), (1, 24), (1, 48)],
        stsc: vec![(1, 1, 1), (2, 1, 1), (3, 2, 1)],
        stco: vec![2000, 2100, 2150],
        ..w_track()
    };
    movie(&[first, Track { id: 2, stco: vec![2000, 2150], ..w_track() }]).file_of(4096).bytes()
}

const REPORT: &str = "track  stts  now  stsc  now  bytes freed\n    \
                          1     4    2     3    2           28\n    \
                          2     2    2     2    2            0\n";

fn names(folder: &Folder) -> Vec<String> {
    let all = fs::read_dir(folder.path("")).unwrap();
    let mut names: Vec<String> = all.map(|entry| entry.unwrap().file_name().into_string().unwrap()).collect();
    names.sort();
    names
}

#[test]
fn slips_of_the_film_stay_good() {
    let folder = Folder::new("compact");
    folder.file("x.mov", &wasteful());
    let moov = u32::from_be_bytes(*wasteful().first_chunk().unwrap());
    let ran = run_in(&folder, "compact x.mov -o y.mov");
    let words =
        format!("28 of the moov's {moov} bytes are free now; no offset has moved, and slips of the film stay good\n");
    assert_eq!(ran, Ran { out: REPORT.to_string() + &words, err: String::new(), status: 0 });
    let after = fs::read(folder.path("y.mov")).unwrap();
    assert_eq!(after, compact_film(&wasteful()).unwrap());
    assert_eq!(fs::read(folder.path("x.mov")).unwrap(), wasteful());
    for line in ["slip x.mov 1 0 120 -o 1.slip", "slip x.mov 2 0 120 -o 2.slip"] {
        assert_eq!(run_in(&folder, line).status, 0);
    }
    let before = run_in(&folder, "check x.mov 1.slip 2.slip");
    let checked = run_in(&folder, "check y.mov 1.slip 2.slip");
    assert!(checked.out.contains("every slip is good, and every track adds up\n"), "{checked:?}");
    assert_eq!((&checked, checked.status), (&before, 0));
    for line in ["tracks", "samples", "stretch", "features"] {
        let ask = |film: &str| run_in(&folder, &format!("{line} {film} {}", if line == "tracks" { "" } else { "1" }));
        assert_eq!(ask("y.mov"), ask("x.mov"));
    }
    let again = run_in(&folder, "compact y.mov -o z.mov");
    assert!(again.out.ends_with("nothing to free: z.mov is a copy of the film\n"), "{again:?}");
    assert_eq!(fs::read(folder.path("z.mov")).unwrap(), after);
}

#[test]
fn documents() {
    let folder = Folder::new("compact-json");
    folder.file("x.mov", &wasteful());
    let moov = u32::from_be_bytes(*wasteful().first_chunk().unwrap());
    let expected = format!(
        "{{\"format\":1,\"file\":\"x.mov\",\"out\":\"y.mov\",\"moov_bytes\":{moov},\"freed\":28,\"tracks\":[\
         {{\"id\":1,\"freed\":28,\"stts_entries\":{{\"before\":4,\"after\":2}},\"stsc_entries\":{{\"before\":3,\"after\":2}}}},\
         {{\"id\":2,\"freed\":0,\"stts_entries\":{{\"before\":2,\"after\":2}},\"stsc_entries\":{{\"before\":2,\"after\":2}}}}]}}\n"
    );
    assert_eq!(run_in(&folder, "compact x.mov -o y.mov --json"), Ran { out: expected, err: String::new(), status: 0 });
}

#[test]
fn the_film_is_never_written_over() {
    let folder = Folder::new("compact-kept");
    let film = folder.file("x.mov", &wasteful());
    symlink("x.mov", folder.path("link.mov")).unwrap();
    fs::hard_link(&film, folder.path("other.mov")).unwrap();
    for name in ["x.mov", "link.mov", "other.mov"] {
        let ran = run_in(&folder, &format!("compact x.mov -o {name}"));
        assert_eq!((ran.err, ran.status), (format!("chaldoref: {name}: this is the film itself\n"), 2));
    }
    let out = folder.path("x.mov");
    let mut command = program(&["compact", "-", "-o", out.to_str().unwrap()]);
    let ran = Ran::new(command.stdin(File::open(&film).unwrap()).output().unwrap());
    assert!(ran.err.ends_with("this is the film itself\n") && ran.status == 2, "{ran:?}");
    assert_eq!(fs::read(&film).unwrap(), wasteful());
    assert_eq!(names(&folder), ["link.mov", "other.mov", "x.mov"]);
}

#[test]
fn a_refused_film_writes_nothing() {
    let folder = Folder::new("compact-refused");
    folder.file("x.mov", &wasteful()[..4000]);
    folder.file("y.mov", b"an earlier film");
    let ran = run_in(&folder, "compact x.mov -o y.mov");
    assert!(ran.status == 1 && ran.out.is_empty(), "{ran:?}");
    assert_eq!(fs::read(folder.path("y.mov")).unwrap(), b"an earlier film");
    assert_eq!(run_in(&folder, "compact x.mov -o z.mov").status, 1);
    assert_eq!(names(&folder), ["x.mov", "y.mov"]);
}

#[test]
fn what_cannot_be_written_leaves_nothing() {
    let folder = Folder::new("compact-unwritten");
    folder.file("x.mov", &wasteful());
    let ran = run_in(&folder, "compact x.mov -o nowhere/y.mov");
    assert!(ran.status == 2 && ran.err.starts_with("chaldoref: nowhere/y.mov: "), "{ran:?}");
    assert_eq!(run_in(&folder, "compact x.mov -o /dev/full").status, 2);
    assert_eq!(names(&folder), ["x.mov"]);
    for (line, wrong) in [
        ("compact x.mov", "-o OUT is missing"),
        ("compact x.mov -o -", "a film is not written to standard output"),
        ("compact x.mov y.mov -o z.mov", "'y.mov' is one argument too many"),
    ] {
        let ran = run_in(&folder, line);
        assert!(ran.status == 2 && ran.err.starts_with(&format!("chaldoref: {wrong}\n")), "{ran:?}");
    }
}

#[test]
fn standard_input() {
    let folder = Folder::new("compact-input");
    let out = folder.path("y.mov");
    let ran = run_on(&wasteful(), &["compact", "-", "-o", out.to_str().unwrap()]);
    assert!(ran.out.starts_with(REPORT) && ran.status == 0, "{ran:?}");
    assert_eq!(fs::read(out).unwrap(), compact_film(&wasteful()).unwrap());
}

#[test]
fn a_long_film_is_copied_around_its_moov() {
    // Past the pieces that are copied at once, with the moov first, and then last.
    let folder = Folder::new("compact-long");
    let mdat = [&(3_000_000u32).to_be_bytes()[..], b"mdat", &vec![7; 2_999_992]].concat();
    let moov = {
        let film = wasteful();
        let size = usize::try_from(u32::from_be_bytes(*film.first_chunk().unwrap())).unwrap();
        film[..size].to_vec()
    };
    for film in [[&moov[..], &mdat].concat(), [&mdat[..], &moov].concat()] {
        folder.file("x.mov", &film);
        assert_eq!(
            run(&["compact", folder.path("x.mov").to_str().unwrap(), "-o", folder.path("y.mov").to_str().unwrap()])
                .status,
            0
        );
        assert_eq!(fs::read(folder.path("y.mov")).unwrap(), compact_film(&film).unwrap());
    }
}
