//! Nothing of the user's is lost: what is written over, full disks, lack of memory, and streams that are closed.
mod common;

use common::{program, program_after, run, run_on, words, Folder, Ran, W};
use reference::film::{w, w_movie, w_track, Movie, Sizes, Track};
use std::fs::{self, File};
use std::os::unix::fs::{symlink, PermissionsExt};
use std::path::Path;

/// The whole of film W as a slip.
const SLIP: [u8; 14] = [0x01, 0x01, 0xd8, 0x04, 0x00, 0x78, 0x02, 0xe8, 0x07, 0x96, 0x01, 0x84, 0x07, 0x46];

/// The last line of standard error; those before it say what a slip is of.
fn last(err: &str) -> String {
    err.lines().last().unwrap_or_default().into()
}

/// The names in the folder that a file is in.
fn names_beside(path: &Path) -> Vec<String> {
    let mut names: Vec<String> = fs::read_dir(path.parent().unwrap())
        .unwrap()
        .map(|entry| entry.unwrap().file_name().into_string().unwrap())
        .collect();
    names.sort();
    names
}

#[test]
fn a_film_from_standard_input_is_not_overwritten() {
    let folder = Folder::new("film-kept");
    let film = folder.file("x.mov", &w().bytes());
    let (link, other) = (folder.path("link.mov"), folder.path("other.mov"));
    symlink("x.mov", &link).unwrap();
    fs::hard_link(&film, &other).unwrap();
    for name in [&film, &link, &other, Path::new("/dev/stdin")] {
        let name = name.to_str().unwrap();
        let mut slip = program(&["slip", "-", "1", "0", "120", "-o", name]);
        let ran = Ran::new(slip.stdin(File::open(&film).unwrap()).output().unwrap());
        assert_eq!((last(&ran.err), ran.status), (format!("chaldoref: {name}: this is the film itself"), 2));
        assert_eq!(fs::read(&film).unwrap(), w().bytes());
    }
    assert_eq!(names_beside(&film), ["link.mov", "other.mov", "x.mov"]);
}

#[test]
fn a_slip_is_replaced_as_a_whole() {
    let folder = Folder::new("replaced");
    let slip = folder.file("w.slip", b"an earlier slip, which is longer");
    fs::set_permissions(&slip, fs::Permissions::from_mode(0o640)).unwrap();
    symlink("w.slip", folder.path("link")).unwrap();
    symlink("new.slip", folder.path("dangling")).unwrap();
    for name in ["w.slip", "link", "dangling"] {
        let ran = run(&["slip", W, "1", "0", "120", "-o", folder.path(name).to_str().unwrap()]);
        assert_eq!((ran.out.as_str(), ran.status), ("", 0), "{}", ran.err);
        assert_eq!(fs::read(folder.path(name)).unwrap(), SLIP);
    }
    assert_eq!(fs::metadata(&slip).unwrap().permissions().mode() & 0o777, 0o640);
    // The links are still links, and nothing else is there.
    assert_eq!(fs::read_link(folder.path("link")).unwrap(), Path::new("w.slip"));
    assert_eq!(names_beside(&slip), ["dangling", "link", "new.slip", "w.slip"]);
}

#[test]
fn what_is_no_file_is_written_where_it_is() {
    let full = run(&["slip", W, "1", "0", "120", "-o", "/dev/full"]);
    assert_eq!((last(&full.err), full.status), ("chaldoref: /dev/full: No space left on device".into(), 2));
    let out = program(&["slip", W, "1", "0", "120", "-o", "/dev/stdout"]).output().unwrap();
    assert_eq!((out.stdout, out.status.code()), (SLIP.to_vec(), Some(0)));
    let folder = Folder::new("no-file");
    let name = folder.path("").to_str().unwrap().to_string();
    let ran = run(&["slip", W, "1", "0", "120", "-o", &name]);
    assert_eq!((last(&ran.err), ran.status), (format!("chaldoref: {name}: Is a directory"), 2));
}

/// A limit on the size of files stands for a disk that is full.
#[test]
fn a_full_disk_leaves_the_earlier_slip() {
    let folder = Folder::new("full");
    let earlier = folder.file("w.slip", b"an earlier slip");
    for name in [&earlier, &folder.path("new.slip")] {
        let name = name.to_str().unwrap();
        let line = ["slip", W, "1", "0", "120", "-o", name];
        let ran = Ran::new(program_after("trap '' XFSZ; ulimit -f 0", &line, "").output().unwrap());
        assert_eq!((last(&ran.err), ran.status), (format!("chaldoref: {name}: File too large"), 2));
    }
    assert_eq!(fs::read(&earlier).unwrap(), b"an earlier slip");
    assert_eq!(names_beside(&earlier), ["w.slip"]);
}

/// A film of 300,000 chunks, each of one sample of one byte.
fn many_chunks() -> Vec<u8> {
    let count = 300_000;
    let track = Track {
        duration: count,
        stts: vec![(count, 1)],
        stsc: vec![(1, 1, 1)],
        stsz: Sizes::Common(1, count),
        stco: (0..count).collect(),
        ..w_track()
    };
    Movie { tracks: vec![track], ..w_movie() }.file().bytes()
}

/// Runs a command line on a file with less memory than it needs, and with more and more until it ends with that status. Each run before tells that there
/// is too little. How many told it is returned.
#[track_caller]
fn tells_of_memory(command: &str, file: &Path, rest: &str, status: i32) -> usize {
    let file = file.to_str().unwrap();
    let line = [&[command, file], &words(rest)[..]].concat();
    let with =
        |kilobytes: u32, line: &[&str]| program_after(&format!("ulimit -v {kilobytes}"), line, "").output().unwrap();
    // What the program itself needs, and something for its small texts.
    let least = (1..).map(|n| n * 256).find(|n| with(*n, &["tracks", W]).status.success()).unwrap() + 512;
    let told = (0..400)
        .map(|n| with(least + n * 256, &line))
        .take_while(|output| output.status.code() != Some(status))
        .map(|output| {
            // What a stretch is may have been told before.
            let told = String::from_utf8(output.stderr).unwrap();
            let last = (told.lines().last().unwrap_or_default(), output.status.code());
            assert_eq!(last, (&*format!("chaldoref: {file}: out of memory"), Some(2)), "{line:?}");
        })
        .count();
    assert!((1..400).contains(&told), "{line:?}: {told}");
    told
}

#[test]
fn lack_of_memory() {
    let folder = Folder::new("memory");
    let film = folder.file("many.mov", &many_chunks());
    let slip = folder.path("many.slip");
    let out = format!("1 0 300000 -o {}", slip.to_str().unwrap());
    let for_the_file = tells_of_memory("tracks", &film, "", 0);
    for (command, rest) in [
        ("stretch", "1 0 300000"),
        ("stretch", "1 0 300000 --bytes"),
        ("slip", "1 0 300000"),
        ("slip", "1 0 300000 --json"),
        ("slip", &out),
    ] {
        // More is needed for the answer.
        assert!(tells_of_memory(command, &film, rest, 0) > for_the_file, "{command} {rest}");
    }
    let bytes = fs::read(&slip).unwrap();
    tells_of_memory("read-slip", &slip, "", 0);
    tells_of_memory("read-slip", &folder.file("cut.slip", &bytes[..bytes.len() - 1]), "", 1);
    let hex: String = bytes.iter().map(|byte| format!("{byte:02x}")).collect();
    tells_of_memory("read-slip", &folder.file("text.slip", hex.as_bytes()), "--json", 0);
}

#[test]
fn standard_output_that_is_closed() {
    let closed = ("", "chaldoref: standard output: it is closed".to_string(), 2);
    for line in ["tracks films/w.mov", "stretch films/w.mov 1 0 120 --bytes", "slip films/w.mov 1 0 1 -o -", "--help"] {
        let ran = Ran::new(program_after("", &words(line), ">&-").output().unwrap());
        assert_eq!((ran.out.as_str(), last(&ran.err), ran.status), closed, "{line}");
    }
    // One that can only be read is as good as closed.
    let read_only = Ran::new(program_after("", &words("tracks films/w.mov"), "1<films/w.mov").output().unwrap());
    assert_eq!(read_only.err, "chaldoref: standard output: Bad file descriptor\n");
    assert_eq!(read_only.status, 2);
    // Without anyone to tell the status tells.
    let alone = program_after("", &words("tracks films/w.mov"), ">&- 2>&-").output().unwrap();
    assert_eq!(alone.status.code(), Some(2));
    // What prints nothing needs none, and whoever throws the answer away may.
    let folder = Folder::new("closed");
    let slip = folder.path("w.slip");
    let line = ["slip", W, "1", "0", "120", "-o", slip.to_str().unwrap()];
    assert_eq!(program_after("", &line, ">&-").output().unwrap().status.code(), Some(0));
    assert_eq!(fs::read(&slip).unwrap(), SLIP);
    for redirection in [">/dev/null", "1<>/dev/null"] {
        assert_eq!(program_after("", &["tracks", W], redirection).output().unwrap().status.code(), Some(0));
    }
}

#[test]
fn standard_input_that_is_closed() {
    let closed = Ran { out: String::new(), err: "chaldoref: standard input: it is closed\n".into(), status: 2 };
    for line in ["tracks -", "slip - 1 0 120", "read-slip -"] {
        assert_eq!(Ran::new(program_after("", &words(line), "<&-").output().unwrap()), closed, "{line}");
    }
    let other = Ran::new(program_after("", &["tracks", W], "<&-").output().unwrap());
    assert_eq!(other, run_on(b"", &["tracks", W]));
    assert_eq!(other.status, 0);
    // An empty one is read, and is no film.
    assert_eq!(program_after("", &["tracks", "-"], "0<>/dev/null").output().unwrap().status.code(), Some(1));
}
