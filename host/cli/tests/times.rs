//! Times as people have them: in seconds, by the clock, the end, and none for the whole track.
mod common;

use common::{answers, refuses, run, run_on, words, Folder, Ran, HOSES, W};
use reference::film::{w_movie, Movie};
use reference::made::w_with;

const OUTSIDE: &str = "the sample number is not in 1 to N, or the time or stretch lies outside";

/// Both command lines are answered in the same way on standard output.
#[track_caller]
fn same_output(line: &str, plain: &str) {
    let (one, other) = (run(&words(line)), run(&words(plain)));
    assert_eq!((one.out, one.status), (other.out, 0), "{line}");
}

#[test]
fn the_sample_at_a_time() {
    let heading = "media time  hh:mm:ss.mmm  sample  decode  duration  stts entry";
    let at = |line, row| answers(line, &format!("{heading}\n{row}\n"));
    at("at films/w.mov 1 0.04s", "        24  00:00:00.040       2      24        24           1");
    at("at films/w.mov 1 00:00:00.0399", "        23  00:00:00.038       1       0        24           1");
    for (time, units) in [("0s", 0), ("0.12s", 72), ("0:0:0.199", 119), ("0.1999999999999999999999s", 119)] {
        same_output(&format!("at {W} 1 {time}"), &format!("at {W} 1 {units}"));
        same_output(&format!("at {W} 1 {time} --json"), &format!("at {W} 1 {units} --json"));
    }
}

#[test]
fn stretches_of_times() {
    answers(
        "stretch films/two-hoses.mov 2 0.04s 00:00:00.160",
        "offset  length\n  1108      16\n  1156      32\n2 ranges, 48 bytes\n\
         media time 24 to 96 (00:00:00.040 to 00:00:00.160), film time 72 (00:00:00.120)\n",
    );
    for (times, units) in [("", "0 144"), ("0 end", "0 144"), ("0x18 end", "24 144"), ("0.05s 96", "30 96")] {
        for options in ["", "--json", "--bytes"] {
            same_output(
                &format!("stretch {HOSES} 2 {times} {options}"),
                &format!("stretch {HOSES} 2 {units} {options}"),
            );
        }
    }
}

/// Standard output has the slip alone, or the film's bytes, so that standard error has the units.
#[test]
fn the_units_are_told() {
    let whole =
        "chaldoref: track 1, media time 0 to 120 (00:00:00.000 to 00:00:00.200), film time 120 (00:00:00.200)\n";
    let slip = "01 01 D8 04 00 78 02 E8 07 96 01 84 07 46\n";
    for times in ["", "0 end", "0s 0.2s", "0:00:00 120"] {
        let ran = run(&words(&format!("slip {W} 1 {times}")));
        assert_eq!(ran, Ran { out: slip.into(), err: whole.into(), status: 0 }, "{times}");
    }
    let folder = Folder::new("units-told");
    let path = folder.path("w.slip");
    let ran = run(&["slip", W, "1", "-o", path.to_str().unwrap()]);
    assert_eq!(ran, Ran { out: String::new(), err: whole.into(), status: 0 });
    assert_eq!(std::fs::read(&path).unwrap().len(), 14);
    let bytes = run(&words(&format!("stretch {HOSES} 2 0.04s 0.08s --bytes")));
    let part = "chaldoref: track 2, media time 24 to 48 (00:00:00.040 to 00:00:00.080), film time 24 (00:00:00.040)\n";
    assert_eq!(bytes, Ran { out: "hose 2 picture 2".into(), err: part.into(), status: 0 });
    // Whoever gave units may have meant seconds, so that they are told too.
    assert_eq!(run(&words("slip films/w.mov 1 0 120")).err, whole);
    // Answers and documents have them.
    for line in ["slip films/w.mov 1 --json", "stretch films/w.mov 1"] {
        assert_eq!(run(&words(line)).err, "", "{line}");
    }
}

/// A stretch that is shorter than its first sample is a warning, in documents too.
#[test]
fn tiny_stretches() {
    let warning = "this is 1 unit, 1/600 of a second, and one sample lasts 24; seconds are written as 1s 2s";
    for line in ["slip films/w.mov 1 1 2", "slip films/w.mov 1 1 2 --json", "stretch films/w.mov 1 1 2"] {
        let ran = run(&words(line));
        assert!(ran.err.ends_with(&format!("chaldoref: warning: {warning}\n")), "{}", ran.err);
        assert_eq!((ran.status, ran.out.contains(warning)), (0, line.ends_with("--json")));
    }
    for line in ["slip films/w.mov 1 0 24", "stretch films/w.mov 1 24 73"] {
        assert!(!run(&words(line)).err.contains("warning"), "{line}");
    }
    let several = run(&words("stretch films/w.mov 1 72 119")).err;
    assert!(several.contains("this is 47 units, 47/600 of a second, and one sample lasts 48"), "{several}");
}

/// Minutes and seconds, and the start.
#[test]
fn more_times() {
    let units = run(&words("stretch films/w.mov 1 0 120"));
    for times in ["start end", "0:00 end", "start 0:00.2", "00:00:00 0:0.2"] {
        assert_eq!(run(&words(&format!("stretch films/w.mov 1 {times}"))), units, "{times}");
    }
    assert_eq!(run(&words("at films/w.mov 1 start")), run(&words("at films/w.mov 1 0")));
}

#[test]
fn times_that_lie_outside() {
    let refused = |line: &str, asked: &str| {
        let hint = format!("media time {asked} was asked, and the track ends at 120 (00:00:00.200)");
        refuses(line, &format!("chaldoref: films/w.mov: refused 15: {OUTSIDE}\nchaldoref: hint: {hint}\n"));
    };
    // The last sample is asked at the end.
    assert_eq!(run(&words("at films/w.mov 1 end")), run(&words("at films/w.mov 1 119")));
    refused("at films/w.mov 1 1:00:00", "2160000");
    refused("stretch films/w.mov 1 0 0.202s", "0 to 121");
    refused("slip films/w.mov 1 end end", "120 to 120, which does not go forward,");
    refused("slip films/w.mov 1 0.1s 12", "60 to 12, which does not go forward,");
    for line in [
        "at films/w.mov 1 7158279s",
        "at films/w.mov 1 4294967295s",
        "at films/w.mov 1 4294967296s",
        "at films/w.mov 1 99999999999999999999999s",
        "stretch films/w.mov 1 0 7158279s",
        "slip films/w.mov 1 4294967295:0:0 1",
        "slip films/w.mov 1 4294967296:0:0 1",
    ] {
        let hint = "that time is over 4294967295 units of the track's scale 600";
        refuses(line, &format!("chaldoref: films/w.mov: refused 15: {OUTSIDE}\nchaldoref: hint: {hint}\n"));
    }
    for line in
        ["at films/w.mov 9 1s", "at films/w.mov 9 4294967295s", "stretch films/w.mov 9", "slip films/w.mov 9 0 end"]
    {
        refuses(
            line,
            "chaldoref: films/w.mov: refused 14: no track has that ID\nchaldoref: hint: the film has track 1\n",
        );
    }
}

/// A time counts in the scale of its own track.
#[test]
fn each_track_has_its_scale() {
    let tracks = vec![w_with(|_| ()), w_with(|track| (track.id, track.scale) = (2, 1001))];
    let film = Movie { tracks, ..w_movie() }.file_of(4096).bytes();
    for (track, time) in [("1", "media time 30 to 60 "), ("2", "media time 50 to 100 ")] {
        let out = run_on(&film, &["stretch", "-", track, "0.05s", "0.1s"]).out;
        assert!(out.lines().last().unwrap().starts_with(time), "{out}");
    }
}

/// A track of a unit a second that lasts as long as any can.
#[test]
fn the_longest_track() {
    let long = w_with(|track| (track.scale, track.duration, track.stts) = (1, u32::MAX, vec![(3, 0), (1, u32::MAX)]));
    let film = Movie { tracks: vec![long], ..w_movie() }.file_of(4096).bytes();
    for end in ["end", "4294967295s", "4294967295.9s", "1193046:28:15"] {
        let out = run_on(&film, &["stretch", "-", "1", "1:00:00", end]).out;
        let time = "media time 3600 to 4294967295 (01:00:00.000 to 1193046:28:15.000), \
                    film time 4294963695 (1193045:28:15.000)";
        assert_eq!(out.lines().last(), Some(time), "{end}");
    }
    assert_eq!(run_on(&film, &["stretch", "-", "1", "0", "1193046:28:16"]).status, 1);
}

/// A movie time counts in the movie's scale.
#[test]
fn movie_times() {
    let mut movie = Movie { tracks: vec![w_with(|_| ())], ..w_movie() };
    movie.scale = 1200;
    let film = movie.file_of(4096).bytes();
    let units = run_on(&film, &["map", "-", "1", "120"]);
    assert_eq!((units.status, units.out.lines().count()), (0, 2));
    for time in ["0.1s", "0:00.1", "00:00:00.100", "0.10004s"] {
        assert_eq!(run_on(&film, &["map", "-", "1", time]), units, "{time}");
    }
    assert_eq!(run(&["map", W, "1", "start"]), run(&["map", W, "1", "0"]));
    refuses(
        "map films/w.mov 1 2s",
        &format!("chaldoref: films/w.mov: refused 15: {OUTSIDE}\nchaldoref: hint: movie time 1200 was asked\n"),
    );
    let late = "that time is over 4294967295 units of the movie's scale 600";
    let said = format!("chaldoref: films/w.mov: refused 15: {OUTSIDE}\nchaldoref: hint: {late}\n");
    refuses("map films/w.mov 1 4294967296s", &said);
    // Where the movie ends is not told.
    assert_eq!(run(&["map", W, "1", "end"]).status, 2);
}

#[test]
fn one_time_is_no_stretch() {
    for command in ["stretch", "slip"] {
        let ran = run(&[command, W, "1", "0"]);
        assert_eq!((ran.err.lines().next(), ran.status), (Some("chaldoref: B is missing"), 2));
    }
}
