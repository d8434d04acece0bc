//! Help, the man page, and how files may be named.
mod common;

use chaldoref::{Feature, Refusal};
use common::{answers, program, run, words, Folder, W};
use reference::film::w;
use std::ffi::OsString;
use std::fs::File;
use std::os::unix::ffi::OsStringExt;
use std::process::{Command, Stdio};

const COMMANDS: [&str; 18] = [
    "tracks",
    "sample",
    "samples",
    "at",
    "map",
    "edits",
    "stretch",
    "slip",
    "read-slip",
    "check",
    "features",
    "profile",
    "check-profile",
    "check-quay",
    "film-return",
    "compact",
    "rates",
    "report",
];

#[test]
fn version() {
    for flag in ["--version", "-V", "version"] {
        answers(flag, &format!("chaldoref {}\n", env!("CARGO_PKG_VERSION")));
    }
}

#[test]
fn help() {
    let all = run(&["--help"]);
    assert_eq!((all.status, all.err.as_str()), (0, ""));
    assert_eq!((&all, &all), (&run(&["-h"]), &run(&["help"])));
    assert_eq!((&all, &all), (&run(&["help", "help"]), &run(&["--help", "--help"])));
    for name in COMMANDS {
        assert!(all.out.lines().any(|line| line.starts_with(&format!("  {name} FILE"))), "{name}");
        let one = run(&[name, "--help"]);
        assert!(one.out.starts_with(&format!("usage: chaldoref {name} FILE")), "{}", one.out);
        assert_eq!((&one, &one), (&run(&["help", name]), &run(&[name, "no-such-file", "-h"])));
        assert_eq!((one.status, one.err.as_str()), (0, ""));
    }
}

/// Also what is said of bad usage, from the second line on.
#[test]
fn help_is_no_wider_than_a_terminal() {
    let narrow = |text: &str| {
        for line in text.lines() {
            assert!(line.chars().count() <= 80, "{line}");
        }
    };
    narrow(&run(&["--help"]).out);
    for name in COMMANDS.into_iter().chain(["completion"]) {
        narrow(&run(&[name, "--help"]).out);
        narrow(&run(&[name]).err);
    }
    narrow(&run::<&str>(&[]).err);
}

/// What bash offers for the last of those words.
fn offered(words: &[&str]) -> Vec<String> {
    let script = "source <(\"$0\" completion bash); COMP_WORDS=(\"$@\"); COMP_CWORD=$(($# - 1)); _chaldoref; \
                  printf '%s\\n' \"${COMPREPLY[@]}\"";
    let output =
        Command::new("bash").args(["-c", script, env!("CARGO_BIN_EXE_chaldoref")]).args(words).output().unwrap();
    assert_eq!((String::from_utf8(output.stderr).unwrap().as_str(), output.status.code()), ("", Some(0)));
    String::from_utf8(output.stdout).unwrap().split_whitespace().map(String::from).collect()
}

#[test]
fn completion() {
    let others = ["completion", "help", "version", "--help", "--version"];
    assert_eq!(offered(&["chaldoref", ""]), [&COMMANDS[..], &others].concat());
    assert_eq!(offered(&["chaldoref", "s"]), ["sample", "samples", "stretch", "slip"]);
    assert_eq!(offered(&["chaldoref", "help", ""]), COMMANDS);
    assert_eq!(offered(&["chaldoref", "completion", "b"]), ["bash"]);
    assert_eq!(offered(&["chaldoref", "slip", "-"]), ["-o", "--sha256", "--json", "--leave-out", "--help"]);
    assert_eq!(offered(&["chaldoref", "sample", W, "1", "--b"]), ["--bytes"]);
    // Each option that a command takes is in its help, and is offered.
    for name in COMMANDS {
        let help = run(&[name, "--help"]).out;
        let options = offered(&["chaldoref", name, W, "-"]);
        let taken = help.lines().filter_map(|line| line.strip_prefix("  -")).count();
        assert_eq!(options.len(), taken + 1, "{name}");
        assert!(options.iter().all(|option| option == "--help" || help.contains(&format!("\n  {option} "))), "{name}");
    }
    // Files are bash's own.
    for words in [&["chaldoref", "tracks", ""][..], &["chaldoref", "tracks", "w"], &["chaldoref", "none", "-"]] {
        assert_eq!(offered(words), [""; 0]);
    }
    let complete = "complete -o default -F _chaldoref chaldoref\n";
    assert!(run(&["completion", "bash"]).out.ends_with(complete));
    assert_eq!(run(&["completion", "--help"]), run(&["help", "completion"]));
}

#[test]
fn one_help_in_full() {
    answers(
        "slip --help",
        "usage: chaldoref slip FILE TRACK [A B] [-o OUT] [--sha256] [--json]\n    [--leave-out PART]\n\n\
         Prints the slip of a track, from media time A up to B, in hex.\n\n  \
           -o OUT            write raw bytes to OUT; - is standard output\n  \
           --sha256          keep the sha256 of the film's bytes in OUT.sha256\n  \
           --json            print one JSON document\n  \
           --leave-out PART  read the film without its edits, or without track=ID\n\n\
         FILE is a film, and for read-slip a slip; - is standard input.\n\
         TRACK is a track ID. Numbers are decimal, or hex after 0x, and below 2^32.\n\
         MEDIA-TIME, A and B are units of the track's own time scale; or seconds as\n\
         12.5s, minutes and seconds as 1:02, hours too as 00:01:02.250, rounded down to\n\
         units; or start, or end, where the track ends.\n\
         Without A and B the whole track is taken.\n\
         PART is edits, for the edit lists of all tracks, or track=ID; --leave-out may be\n\
         given several times. The film itself stays as it is, and each answer says what\n\
         was left out.\n\n\
         Example:\n\n  chaldoref slip films/two-hoses.mov 2 0.04s end -o 2.slip --sha256\n",
    );
}

/// Each command has an example of its own, which begins with its name, and no line of its help twice.
#[test]
fn examples() {
    let mut seen = Vec::new();
    for name in COMMANDS {
        let help = run(&[name, "--help"]).out;
        let example = help.lines().last().unwrap().to_string();
        assert!(example.starts_with(&format!("  chaldoref {name} ")), "{help}");
        assert!(!seen.contains(&example), "{example}");
        seen.push(example);
        let lines: Vec<&str> = help.lines().filter(|line| !line.is_empty()).collect();
        assert!(lines.iter().enumerate().all(|(i, line)| !lines[..i].contains(line)), "{help}");
    }
}

/// The scripts for the other shells name every command and every option.
#[test]
fn other_shells() {
    for shell in ["zsh", "fish"] {
        let script = run(&["completion", shell]);
        assert_eq!((script.err.as_str(), script.status), ("", 0));
        for name in COMMANDS {
            assert!(script.out.contains(&format!(" {name} ")) || script.out.contains(&format!(" {name}'")), "{name}");
            for option in offered(&["chaldoref", name, W, "-"]) {
                let long = option.trim_start_matches('-');
                let line = script.out.lines().any(|line| line.contains(name) && line.contains(long));
                assert!(line || option == "--help", "{shell} {name} {option}");
            }
        }
        // Where the shell is there, it reads its script.
        if let Ok(checked) = Command::new(shell).args(["-n", "-c", &script.out]).output() {
            assert_eq!(String::from_utf8(checked.stderr).unwrap(), "");
        }
    }
}

#[test]
fn the_man_page_has_all() {
    let page = std::fs::read_to_string("chaldoref.1").unwrap().replace("\\-", "-");
    for name in COMMANDS {
        assert!(page.contains(&format!("\\fB{name}\\fR \\fIFILE")), "{name}");
    }
    for refusal in Refusal::ALL {
        assert!(page.contains(&format!(".B {}\n{refusal}\n", refusal.number())), "{refusal}");
    }
    let features = run(&["features", "--help"]).out;
    for feature in Feature::ALL {
        assert!(page.contains(&format!(".B {}\n(", feature.code())), "{feature}");
        assert!(features.contains(&feature.code().to_string()), "{feature}");
    }
    assert!(page.contains(env!("CARGO_PKG_VERSION")));
}

#[test]
fn options_may_stand_anywhere() {
    let expected = run(&words("at films/w.mov 1 24 --json"));
    for line in ["at --json films/w.mov 1 24", "at films/w.mov --json 1 24", "at --json -- films/w.mov 1 24"] {
        assert_eq!(run(&words(line)), expected);
    }
}

#[test]
fn names_of_any_bytes() {
    let folder = Folder::new("names");
    let name = OsString::from_vec(b"-w \xff\xfe\n\"\x1b.mov".to_vec());
    let path = folder.file(&name, &w().bytes());
    assert_eq!(run(&["tracks".as_ref(), path.as_os_str()]), run(&["tracks", W]));
    // In its own folder the name begins with a dash.
    let inside = program(&["tracks".as_ref(), "--".as_ref(), name.as_os_str()])
        .current_dir(path.parent().unwrap())
        .output()
        .unwrap();
    assert_eq!(inside.status.code(), Some(0));
    // Documents have the bytes of a name that is no text, so that it can be told apart.
    let hex: String = path.as_os_str().as_encoded_bytes().iter().map(|byte| format!("{byte:02x}")).collect();
    let document = run(&["tracks".as_ref(), path.as_os_str(), "--json".as_ref()]).out;
    assert!(document.contains(&format!(",\"file_hex\":\"{hex}\",\"movie\":")), "{document}");
    let other = OsString::from_vec(b"none \xff".to_vec());
    let skipped = run(&["film-return".as_ref(), other.as_os_str(), "b".as_ref(), "--json".as_ref()]).out;
    assert!(
        skipped.contains("\"skipped\":[\"none \u{fffd}\",\"b\"],\"skipped_hex\":[\"6e6f6e6520ff\",\"62\"],"),
        "{skipped}"
    );
    // Messages show the name without what could act on a terminal.
    let refused = run(&["at".as_ref(), path.as_os_str(), "9".as_ref(), "0".as_ref()]);
    assert!(
        refused.err.contains("/-w \u{fffd}\u{fffd}?\"?.mov: refused 14: no track has that ID\n"),
        "{}",
        refused.err
    );
}

#[test]
fn standard_input() {
    let redirected = program(&["tracks", "-"]).stdin(File::open("../../films/w.mov").unwrap()).output().unwrap();
    assert_eq!(String::from_utf8(redirected.stdout).unwrap(), run(&["tracks", W]).out);
    assert_eq!(common::run_on(&w().bytes(), &["tracks", "-"]), run(&["tracks", W]));
    let empty = program(&["tracks", "-"]).stdin(Stdio::null()).output().unwrap();
    let said = "chaldoref: standard input: refused 3: an atom is absent or occurs too often\n\
                chaldoref: not proved: this is no QuickTime movie: the file is empty\n\
                chaldoref: hint: there are no tables (moov) in this file: it is no movie, or its recording or copying was \
                broken off; copy it again\n";
    assert_eq!(String::from_utf8(empty.stderr).unwrap(), said);
}
