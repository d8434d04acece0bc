//! Refusals, bad usage and files that cannot be read or written: messages and exit statuses.
mod common;

use common::{program, refuses, run, run_on, words, Folder, Ran, HOSES, W};
use reference::film::{picture, referring, w, w_movie, w_track, Movie, Track};
use reference::made::spoiled;
use std::fs::File;
use std::process::Stdio;

#[test]
fn questions_refused() {
    let outside = "the sample number is not in 1 to N, or the time or stretch lies outside";
    let refused = |line: &str, hint: &str| {
        refuses(line, &format!("chaldoref: films/w.mov: refused 15: {outside}\nchaldoref: hint: {hint}\n"));
    };
    let (samples, units) = ("track 1 has the samples 1 to 4", "plain numbers are units, 600 to a second");
    refused("sample films/w.mov 1 0", samples);
    refused("sample films/w.mov 1 5 --bytes", samples);
    let end = "and the track ends at 120 (00:00:00.200)";
    refused("at films/w.mov 1 120", &format!("media time 120 was asked, {end}; {units}"));
    refused("map films/w.mov 1 120", &format!("movie time 120 was asked; {units}"));
    let back = "which does not go forward";
    refused("stretch films/w.mov 1 73 24", &format!("media time 73 to 24, {back}, was asked, {end}; {units}"));
    refused("slip films/w.mov 1 24 24", &format!("media time 24 to 24, {back}, was asked, {end}; {units}"));
    for line in
        ["sample films/w.mov 2 1", "features films/w.mov 2", "profile films/w.mov 2", "check-profile films/w.mov 0"]
    {
        let hint = "chaldoref: hint: the film has track 1\n";
        refuses(line, &format!("chaldoref: films/w.mov: refused 14: no track has that ID\n{hint}"));
    }
    let hoses = run(&["edits", HOSES, "3"]).err;
    assert!(hoses.ends_with("chaldoref: hint: the film has tracks 1 and 2\n"), "{hoses}");
    let features = |code, hint: &str| {
        let said = format!("chaldoref: films/w.mov: refused 18: the feature cannot be computed\n{hint}");
        refuses(&format!("features films/w.mov 1 {code}"), &said);
    };
    features("avab", "chaldoref: hint: avab is only for sound tracks\n");
    features("mabr", "chaldoref: hint: mabr is only for sound tracks\n");
    let codes = "there are avvb, avab, tvsz, vfps, mvbr, mabr";
    features("vfmt", &format!("chaldoref: hint: there is no feature vfmt; {codes}\n"));
    features("0x00000000", &format!("chaldoref: hint: there is no feature 0x00000000; {codes}\n"));
    refuses(
        "read-slip films/w.mov",
        "chaldoref: films/w.mov: refused 17: a slip is malformed\n   \
            0  00 00 02 0C 6D 6F 6F 76 00 00 00 6C 6D 76 68 64\n      \
               ^^\n  \
           16  00 00 00 00 00 00 00 00 00 00 00 00 00 00 02 58\n  \
           32  00 00 00 78 00 00 00 00 00 00 00 00 00 00 00 00\n\
         place 0, form: it is 0, and must be 1 or 2\n\
         chaldoref: hint: this is a film, not a slip\n",
    );
}

#[test]
fn a_refusal_is_a_document_too() {
    let expected = Ran {
        out: "{\"format\":1,\"file\":\"films/w.mov\",\"refused\":14,\"reason\":\"no track has that ID\",\
             \"explanation\":null,\"hint\":{\"words\":\"the film has track 1\",\"proved\":false}}\n"
            .into(),
        err: "chaldoref: films/w.mov: refused 14: no track has that ID\nchaldoref: hint: the film has track 1\n".into(),
        status: 1,
    };
    assert_eq!(run(&["at", W, "9", "0", "--json"]), expected);
}

#[test]
fn films_refused() {
    let film_of = |track| Movie { tracks: vec![track], ..w_movie() }.file_of(4096);
    for (number, name, film) in spoiled(&w_track(), film_of) {
        let ran = run_on(&film.bytes(), &["tracks", "-"]);
        let reason = chaldoref::Refusal::from_number(number).unwrap();
        let first = format!("chaldoref: standard input: refused {number}: {reason}");
        assert_eq!((ran.out.as_str(), ran.status, ran.err.lines().next()), ("", 1, Some(first.as_str())), "{name}");
        let (_, words) = reference::movie::explain(&film.bytes()).unwrap();
        assert_eq!(ran.err.lines().nth(1), Some(format!("chaldoref: not proved: {words}").as_str()));
        let hints = ran.err.lines().filter(|line| line.starts_with("chaldoref: hint: ")).count();
        assert!(hints == 1 || ![4, 12, 13, 19].contains(&number), "{}", ran.err);
        assert_eq!(ran.err.lines().count(), 2 + hints, "{}", ran.err);
    }
}

/// The hint of a document about a stored duration.
const HINT: &str =
    "\"hint\":{\"words\":\"track 1 stores the duration 121, and its samples total 120\",\"proved\":false}";

#[test]
fn only_a_slip_is_refused_for_a_stored_duration() {
    let film = |change: fn(&mut Track)| {
        let mut track = w_track();
        change(&mut track);
        Movie { tracks: vec![track], ..w_movie() }.file_of(4096).bytes()
    };
    let other = film(|track| track.duration = 121);
    for line in ["sample - 1 3", "at - 1 24", "map - 1 60", "stretch - 1 24 73", "features - 1", "profile -"] {
        let expected = run(&words(&line.replace(" - ", " films/w.mov ").replace(" -", " films/w.mov")));
        assert_eq!(run_on(&other, &words(line)), expected, "{line}");
    }
    let reason = "the mdhd duration is not the total of the sample durations";
    let why = "track 1 (ID 1), mdhd at byte 224: has duration 121, the samples of stts total 120";
    let said = format!("chaldoref: standard input: refused 11: {reason}\nchaldoref: not proved: {why}\n");
    let hint = "chaldoref: hint: track 1 stores the duration 121, and its samples total 120\n";
    // It comes before what is wrong with the question.
    for line in ["slip - 1 24 73", "slip - 1", "slip - 2 24 73", "slip - 1 73 24", "slip - 1 0 121"] {
        let expected = Ran { out: String::new(), err: format!("{said}{hint}"), status: 1 };
        assert_eq!(run_on(&other, &words(line)), expected, "{line}");
    }
    let document = format!(
        "{{\"format\":1,\"file\":\"-\",\"refused\":11,\"reason\":\"{reason}\",\"explanation\":\"{why}\",{HINT}}}\n"
    );
    assert_eq!(run_on(&other, &words("slip - 1 24 73 --json")).out, document);
    // Of two faults the slip writer tells the one that it judges first, and the other questions the one that they judge.
    let both = film(|track| (track.duration, track.stco[1]) = (121, 4027));
    assert_eq!(run_on(&both, &words("slip - 1 24 73")), Ran { out: String::new(), err: said, status: 1 });
    let listed = run_on(&both, &words("tracks -"));
    assert!(listed.err.starts_with("chaldoref: standard input: refused 12: "), "{}", listed.err);
}

#[test]
fn a_refused_film_is_explained() {
    let second = Track { id: 2, stts: vec![(5, 24)], ..w_track() };
    let film = Movie { tracks: vec![w_track(), second], ..w_movie() }.file_of(4096).bytes();
    let words = "track 2 (ID 2), stts at byte 800: counts 5 samples, stsz 4";
    let hint = "with --leave-out track=2 the rest of the film is read. Keep the film as it is.";
    let expected = Ran {
        out: format!("{{\"format\":1,\"file\":\"-\",\"refused\":9,\"reason\":\"sample tables contradict each other\",\
             \"explanation\":\"{words}\",\"hint\":{{\"words\":\"{hint}\",\"proved\":false}}}}\n"),
        err: format!(
            "chaldoref: standard input: refused 9: sample tables contradict each other\nchaldoref: not proved: {words}\n\
             chaldoref: hint: {hint}\n"
        ),
        status: 1,
    };
    assert_eq!(run_on(&film, &["tracks", "-", "--json"]), expected);
    // Whatever is asked of the film.
    assert_eq!(run_on(&film, &["sample", "-", "9", "9", "--json"]), expected);
    assert_eq!(run_on(&film, &["slip", "-", "1", "0", "1"]), Ran { out: String::new(), ..expected });
}

#[test]
fn a_film_kept_in_another_file_is_told_by_track_and_reference() {
    let elsewhere = reference::film::reference(b"alis", 0, b"pictures.mov");
    let references = vec![reference::film::this_file(), elsewhere];
    let descriptions = vec![referring(picture(320, 240), 2)];
    let second = Track { id: 2, references, descriptions, ..w_track() };
    let film = Movie { tracks: vec![w_track(), second], ..w_movie() }.file_of(4096).bytes();
    let said = run_on(&film, &["tracks", "-"]);
    assert_eq!(
        (said.out.as_str(), said.status, said.err.as_str()),
        (
            "",
            1,
            "chaldoref: standard input: refused 19: a description names data elsewhere, or no such data reference\n\
             chaldoref: not proved: track 2 (ID 2), stsd at byte 772: description 1 names data reference 2, of type 'alis', \
             which is another file\n\
             chaldoref: hint: some of this film's data are in another file. The film is not damaged. Keep it as it is; \
             read it with --leave-out track=2, or ask the camera's maker for films that hold all their data.\n"
        )
    );
}

#[test]
fn a_film_cut_short() {
    let film = std::fs::read("../../films/two-hoses.mov").unwrap();
    let cut = film.len() - 100;
    let err = run_on(&film[..cut], &["tracks", "-"]).err;
    let at = film.windows(4).position(|four| four == b"mdat").unwrap() - 4;
    let words = format!("mdat at byte {at} says {} bytes, the file ends after {}", film.len() - at, cut - at);
    assert_eq!(err.lines().nth(1), Some(format!("chaldoref: not proved: {words}").as_str()));
}

/// Bad usage writes nothing to standard output, and says what is wrong and what the command takes.
#[track_caller]
fn bad_usage(line: &str, wrong: &str, usage: &str) {
    let err = format!("chaldoref: {wrong}\nusage: chaldoref {usage}\n");
    assert_eq!(run(&words(line)), Ran { out: String::new(), err, status: 2 }, "{line}");
}

#[test]
fn usage() {
    let all = "COMMAND FILE ...\n       chaldoref --help\n\
               commands: tracks, sample, samples, at, map, edits, stretch, slip, read-slip,\n\
               check, features, profile, check-profile, check-quay, film-return, compact,\n\
               rates, report, completion, help, version";
    bad_usage("", "no command is named", all);
    for line in ["track films/w.mov", "help track"] {
        bad_usage(line, "there is no command 'track'; did you mean tracks?", all);
    }
    bad_usage("chekc films/w.mov", "there is no command 'chekc'; did you mean check?", all);
    bad_usage("hlep", "there is no command 'hlep'; did you mean help?", all);
    bad_usage("films/w.mov", "there is no command 'films/w.mov'", all);
    bad_usage("--bytes", "there is no command '--bytes'", all);
    for line in ["help tracks x", "help help x", "--help -h x", "--version x", "completion bash x"] {
        bad_usage(line, "'x' is one argument too many", all);
    }
    bad_usage("completion", "the shell is missing", "completion bash|zsh|fish");
    bad_usage("completion csh", "there is no completion for 'csh'", "completion bash|zsh|fish");
    let tracks = "tracks FILE... [--json] [--leave-out PART]";
    bad_usage("tracks", "FILE is missing", tracks);
    bad_usage("profile a 1 b", "'b' is one argument too many", "profile FILE [TRACK] [--json] [--leave-out PART]");
    bad_usage("tracks a --bytes", "tracks has no option '--bytes'", tracks);
    bad_usage("tracks a --jsno", "tracks has no option '--jsno'; did you mean --json?", tracks);
    bad_usage("tracks a --leaveout edits", "tracks has no option '--leaveout'; did you mean --leave-out?", tracks);
    for part in ["edit", "track=", "track=x", "2"] {
        let wrong = format!("--leave-out takes edits, or track=ID as in track=2, and not '{part}'");
        bad_usage(&format!("tracks a --leave-out {part}"), &wrong, tracks);
    }
    bad_usage("tracks a --leave-out", "--leave-out needs PART", tracks);
    bad_usage("sample a 1", "N is missing", "sample FILE TRACK N [--bytes] [--json] [--leave-out PART]");
    let samples = "samples FILE TRACK [FROM [TO]] [--json] [--csv]\n    [--leave-out PART]";
    bad_usage("samples a", "TRACK is missing", samples);
    bad_usage("samples a 1 2 3 4", "'4' is one argument too many", samples);
    bad_usage("samples a 1 2 -3", "TO is a number from 0 to 4294967295, and not '-3'", samples);
    let slip = "slip FILE TRACK [A B] [-o OUT] [--sha256] [--json]\n    [--leave-out PART]";
    bad_usage("slip a 1 0 1 -o", "-o needs OUT", slip);
    for line in ["slip a 1 --sha256", "slip a 1 --sha256 -o -"] {
        bad_usage(line, "--sha256 goes with -o OUT, beside which it is kept, or with --json", slip);
    }
    let check = "check FILE [SLIP...] [--json] [--leave-out PART]";
    bad_usage("check", "FILE is missing", check);
    bad_usage("check a b --hex", "check has no option '--hex'", check);
    for line in ["check - -", "check a - -", "check - a -"] {
        bad_usage(line, "standard input can be one file only", check);
    }
    let codes = "CODE is four characters, or a number after 0x, and not 'avv'";
    bad_usage("features a 1 avv", codes, "features FILE... [TRACK [CODE]] [--json] [--leave-out PART]");
}

/// With --json bad usage and an unreadable file are documents too; standard error has the same as without.
#[test]
fn what_fails_is_a_document_too() {
    let fails = |line: &str, document: &str| {
        let ran = run(&words(line));
        assert_eq!((ran.out, ran.status), (format!("{{\"format\":1,{document}}}\n"), 2), "{line}");
        assert!(ran.err.starts_with("chaldoref: "), "{line}");
    };
    fails("--json", "\"error\":\"there is no command '--json'\"");
    fails("tracks --json", "\"error\":\"FILE is missing\"");
    fails("at --json films/w.mov", "\"error\":\"TRACK is missing\"");
    let both = "\"error\":\"--json goes with neither --bytes nor -o\"";
    fails("sample a 1 1 --json --bytes", both);
    fails("slip a 1 0 1 --json -o b", both);
    fails("samples a 1 --csv --json", "\"error\":\"--json does not go with --csv\"");
    let none = "\"error\":\"No such file or directory\"";
    fails("tracks none.mov --json", &format!("\"file\":\"none.mov\",{none}"));
    fails("check none.mov none.slip --json", &format!("\"file\":\"none.mov\",{none}"));
    fails("features films 1 --json", "\"file\":\"films\",\"error\":\"Is a directory\"");
    fails(
        "read-slip --hex films/w.mov --json",
        &format!("\"file\":\"{W}\",\"error\":\"line 1, column 1: not a pair of hex digits\""),
    );
    // After the two dashes it is the name of a file.
    assert_eq!(run(&words("tracks -- --json")).out, "");
}

/// What a media time is.
const TIME: &str = "a number of units from 0 to 4294967295, or as 12.5s, 1:02, 00:01:02.250, start or end";

/// What a movie time is.
const MOVIE_TIME: &str = "a number of units from 0 to 4294967295, or as 12.5s, 1:02, 00:01:02.250 or start";

#[test]
fn numbers() {
    let number = "a number from 0 to 4294967295";
    let lines = [
        ("at a X 0", "TRACK", number),
        ("at a 0 X", "MEDIA-TIME", TIME),
        ("map a 0 X", "MOVIE-TIME", MOVIE_TIME),
        ("stretch a 0 X 0", "A", TIME),
        ("slip a 0 0 X", "B", TIME),
    ];
    for (line, name, wanted) in lines {
        for text in ["4294967296", "0x100000000", "1.5", "x", "0x", "+1"] {
            let ran = run(&words(&line.replace('X', text)));
            let first = format!("chaldoref: {name} is {wanted}, and not '{text}'");
            assert_eq!((ran.err.lines().next(), ran.status), (Some(first.as_str()), 2));
        }
    }
    // The greatest number is a good one.
    assert_eq!(run(&["at", W, "0xffffffff", "4294967295"]).status, 1);
}

#[test]
fn numbers_with_a_sign() {
    let time = format!("MEDIA-TIME is {TIME}, and not '-1'");
    let at = "at FILE TRACK MEDIA-TIME [--json] [--leave-out PART]";
    bad_usage("at films/w.mov 1 -1", &time, at);
    bad_usage("at -- films/w.mov 1 -1", &time, at);
    let track = "TRACK is a number from 0 to 4294967295, and not '-0x1'";
    bad_usage("profile films/w.mov -0x1", track, "profile FILE [TRACK] [--json] [--leave-out PART]");
    let surplus = "'-1' is one argument too many";
    bad_usage("at films/w.mov 1 0 -1", surplus, at);
    // Where a file is named, it looks like an option.
    bad_usage("tracks -1", "tracks has no option '-1'", "tracks FILE... [--json] [--leave-out PART]");
    bad_usage("read-slip a -1", "read-slip has no option '-1'", "read-slip FILE... [--hex] [--json]");
}

#[test]
fn unreadable_files() {
    let failed =
        |name: &str, reason: &str| Ran { out: String::new(), err: format!("chaldoref: {name}: {reason}\n"), status: 2 };
    assert_eq!(run(&["tracks", "films/none.mov"]), failed("films/none.mov", "No such file or directory"));
    assert_eq!(run(&["tracks", ""]), failed("an empty name", "No such file or directory"));
    // What a slip is of is told before it is written.
    let last = |ran: Ran| Ran { err: format!("{}\n", ran.err.lines().last().unwrap()), ..ran };
    let nameless = last(run(&["slip", W, "1", "0", "24", "-o", ""]));
    assert_eq!(nameless, failed("an empty name", "No such file or directory"));
    assert_eq!(run(&["tracks", "films"]), failed("films", "Is a directory"));
    assert_eq!(run(&["read-slip", "--hex", HOSES]), failed(HOSES, "line 1, column 1: not a pair of hex digits"));
    let typed = run_on(b"01 01 D8\n04 1B 4", &["read-slip", "-"]);
    assert_eq!(typed, failed("standard input", "line 2, column 7: not a pair of hex digits"));
    let slip = last(run(&["slip", W, "1", "0", "24", "-o", "films/none/w.slip"]));
    assert_eq!(slip, failed("films/none/w.slip", "No such file or directory"));
}

#[test]
fn the_film_is_not_overwritten() {
    let folder = Folder::new("overwritten");
    let film = folder.file("w.mov", &w().bytes());
    let link = folder.path("link.mov");
    std::os::unix::fs::symlink(&film, &link).unwrap();
    let (film_name, link_name) = (film.to_str().unwrap(), link.to_str().unwrap());
    let ran = run(&["slip", film_name, "1", "0", "1", "-o", link_name]);
    let last = format!("chaldoref: {link_name}: this is the film itself");
    assert_eq!((ran.err.lines().last(), ran.status), (Some(last.as_str()), 2));
    // A refused question leaves what was there.
    assert_eq!(run(&["slip", W, "1", "0", "121", "-o", film_name]).status, 1);
    assert_eq!(std::fs::read(&film).unwrap(), w().bytes());
}

/// Of a file of any length the top level is judged; its one atom, whose size is 0, goes up to its end.
#[test]
fn a_long_file_of_zeros() {
    let folder = Folder::new("too-long");
    let path = folder.path("long.mov");
    File::create(&path).unwrap().set_len(5_000_000_000).unwrap();
    let ran = run(&["tracks".as_ref(), path.as_os_str()]);
    assert!(ran.err.contains(": refused 3: an atom is absent or occurs too often\n"), "{}", ran.err);
    assert_eq!((ran.out.as_str(), ran.status), ("", 1));
}

#[test]
fn output_that_no_one_reads() {
    // More bytes than a pipe holds.
    let film = Movie { tracks: vec![big_sample()], ..w_movie() }.file_of(4_000_000).bytes();
    let folder = Folder::new("pipe");
    let path = folder.file("big.mov", &film);
    let mut child = program(&["sample", path.to_str().unwrap(), "1", "1", "--bytes"]).spawn().unwrap();
    drop(child.stdout.take());
    let output = child.wait_with_output().unwrap();
    assert_eq!((output.status.code(), output.stderr), (Some(0), vec![]));
}

/// W's track with a great first sample.
fn big_sample() -> reference::film::Track {
    let sizes = reference::film::Sizes::Each(vec![3_000_000, 50, 0, 70]);
    reference::film::Track { stsz: sizes, ..w_track() }
}

#[test]
fn output_that_cannot_be_written() {
    let full = || Stdio::from(File::options().write(true).open("/dev/full").unwrap());
    for line in ["tracks films/w.mov", "sample films/two-hoses.mov 1 1 --bytes", "--help"] {
        let output = program(&words(line)).stdout(full()).output().unwrap();
        let err = String::from_utf8(output.stderr).unwrap();
        assert_eq!(err, "chaldoref: standard output: No space left on device\n");
        assert_eq!(output.status.code(), Some(2));
    }
}
