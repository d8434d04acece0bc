//! Slips beside their film, and whether the film time that they file adds up.
mod common;

use common::{program, run, run_in, run_on, words, Folder, Ran, HOSES, W};
use reference::film::{self, w_movie, w_track};
use reference::made::{empty_track, w_with};
use std::fs::File;
use std::process::Stdio;

/// A film, and a folder for slips.
struct Desk(Folder);

impl Desk {
    fn new(name: &str, film: &[u8]) -> Desk {
        let desk = Desk(Folder::new(name));
        desk.0.file("film.mov", film);
        desk
    }

    /// A desk with the film of two hoses.
    fn of_hoses(name: &str) -> Desk {
        Desk::new(name, &std::fs::read("../../films/two-hoses.mov").unwrap())
    }

    fn of_tracks(name: &str, tracks: Vec<film::Track>) -> Desk {
        Desk::new(name, &film::Movie { tracks, ..w_movie() }.file_of(4096).bytes())
    }

    /// Writes the slip of a stretch: name, track, a and b.
    fn slip(&self, name: &str, track: u32, a: u32, b: u32) -> &Desk {
        let ran = run_in(&self.0, &format!("slip film.mov {track} {a} {b} -o {name}"));
        assert_eq!((ran.out.as_str(), ran.status), ("", 0), "{}", ran.err);
        self
    }

    /// A slip as a clerk types it.
    fn typed(&self, name: &str, hex: &str) -> &Desk {
        self.0.file(name, hex.as_bytes());
        self
    }

    fn check(&self, slips: &str) -> Ran {
        run_in(&self.0, &format!("check film.mov {slips}"))
    }

    /// The check of those slips prints that, and nothing to standard error.
    #[track_caller]
    fn finds(&self, slips: &str, status: i32, out: &str) {
        assert_eq!(self.check(slips), Ran { out: out.into(), err: String::new(), status }, "{slips}");
    }

    /// Of the last of those slips the check says that, and it has that status.
    #[track_caller]
    fn says(&self, slips: &str, status: i32, verdict: &str) {
        let ran = self.check(slips);
        let last = ran.out.lines().nth(words(slips).len()).unwrap();
        assert!(last.ends_with(&format!("  {verdict}")), "{}", ran.out);
        assert_eq!((ran.err.as_str(), ran.status), ("", status), "{slips}");
    }
}

/// Two hoses, each filed in two slips.
fn filed_whole(name: &str) -> Desk {
    let desk = Desk::of_hoses(name);
    desk.slip("1a.slip", 1, 0, 24).slip("1b.slip", 1, 24, 144).slip("2a.slip", 2, 0, 72).slip("2b.slip", 2, 72, 144);
    desk
}

const ADDS_UP: &str = "\
slip     track  scale   a    b  film time  hh:mm:ss.mmm  verdict
1a.slip      1    600   0   24         24  00:00:00.040  good
1b.slip      1    600  24  144        120  00:00:00.200  good
2a.slip      2    600   0   72         72  00:00:00.120  good
2b.slip      2    600  72  144         72  00:00:00.120  good

track  scale  filed  hh:mm:ss.mmm  movie has  hh:mm:ss.mmm  verdict
    1    600    144  00:00:00.240        144  00:00:00.240  adds up
    2    600    144  00:00:00.240        144  00:00:00.240  adds up
slips say where the film lies and do not vouch for the pictures' bytes; slip --sha256 keeps their hash
every slip is good, and every track adds up
";

#[test]
fn two_hoses_filed_whole() {
    let desk = filed_whole("whole");
    desk.finds("1a.slip 1b.slip 2a.slip 2b.slip", 0, ADDS_UP);
    let track = |id| {
        format!(
            "{{\"id\":{id},\"scale\":600,\"filed\":144,\"filed_seconds\":0.24,\"total\":144,\"total_seconds\":0.24,\
             \"gaps\":[],\"overlaps\":[],\"adds_up\":true}}"
        )
    };
    let slip = |name, track, a: u32, b: u32| {
        let [a_seconds, b_seconds] = [a, b].map(|time| f64::from(time) / 600.0);
        format!(
            "{{\"file\":\"{name}\",\"track\":{track},\"scale\":600,\"a\":{a},\"a_seconds\":{a_seconds},\"b\":{b},\
             \"b_seconds\":{b_seconds},\"good\":true,\"fault\":null,\
             \"place\":null,\"reason\":null,\"sha256\":false,\"retyped\":null}}"
        )
    };
    let slips = [slip("2b.slip", 2, 72, 144), slip("1b.slip", 1, 24, 144), slip("1a.slip", 1, 0, 24)];
    desk.finds(
        "--json 2b.slip 1b.slip 1a.slip 2a.slip",
        0,
        &format!(
            "{{\"format\":1,\"file\":\"film.mov\",\"slips\":[{},{}],\"tracks\":[{},{}],\"all_good\":true,\"warnings\":[]}}\n",
            slips.join(","),
            slip("2a.slip", 2, 0, 72),
            track(1),
            track(2)
        ),
    );
}

#[test]
fn one_slip_for_the_whole() {
    let desk = Desk::of_tracks("one", vec![w_track()]);
    desk.slip("w.slip", 1, 0, 120).finds(
        "w.slip",
        0,
        "slip    track  scale  a    b  film time  hh:mm:ss.mmm  verdict\n\
         w.slip      1    600  0  120        120  00:00:00.200  good\n\n\
         track  scale  filed  hh:mm:ss.mmm  movie has  hh:mm:ss.mmm  verdict\n    \
             1    600    120  00:00:00.200        120  00:00:00.200  adds up\n\
         slips say where the film lies and do not vouch for the pictures' bytes; slip --sha256 keeps their hash\n\
         every slip is good, and every track adds up\n",
    );
}

/// Slips may meet inside a sample too. They are raw bytes or hex text, in any order.
#[test]
fn slips_that_meet_anywhere() {
    let desk = Desk::of_tracks("meet", vec![w_track()]);
    for cut in [1, 23, 24, 25, 72, 119] {
        desk.slip("a", 1, 0, cut).typed("b", &run(&words(&format!("slip {W} 1 {cut} 120"))).out);
        assert_eq!((desk.check("b a").status, desk.check("a").status, desk.check("b").status), (0, 1, 1), "{cut}");
    }
}

#[test]
fn gaps() {
    let desk = filed_whole("gaps");
    desk.slip("2c.slip", 2, 30, 71).finds(
        "1b.slip 1a.slip 2b.slip 2c.slip",
        1,
        "slip     track  scale   a    b  film time  hh:mm:ss.mmm  verdict\n\
         1b.slip      1    600  24  144        120  00:00:00.200  good\n\
         1a.slip      1    600   0   24         24  00:00:00.040  good\n\
         2b.slip      2    600  72  144         72  00:00:00.120  good\n\
         2c.slip      2    600  30   71         41  00:00:00.068  good\n\n\
         track  scale  filed  hh:mm:ss.mmm  movie has  hh:mm:ss.mmm  verdict\n    \
             1    600    144  00:00:00.240        144  00:00:00.240  adds up\n    \
             2    600    113  00:00:00.188        144  00:00:00.240  does not add up\n\
         track 2: gap from media time 0 to 30 (00:00:00.000 to 00:00:00.050), film time 30 (00:00:00.050)\n\
         track 2: gap from media time 71 to 72 (00:00:00.118 to 00:00:00.120), film time 1 (00:00:00.001)\n\
         slips say where the film lies and do not vouch for the pictures' bytes; slip --sha256 keeps their hash\n\
         every slip is good, and 1 track does not add up\n",
    );
    // A track that no slip files.
    let out = desk.check("1a.slip").out;
    let whole = "track 2: gap from media time 0 to 144 (00:00:00.000 to 00:00:00.240), film time 144 (00:00:00.240)\n";
    assert!(out.ends_with(&format!("{whole}slips say where the film lies and do not vouch for the pictures' bytes; slip --sha256 keeps their hash\nevery slip is good, and 2 tracks do not add up\n")), "{out}");
    let json = desk.check("2b.slip 2c.slip --json").out;
    let gaps = "\"filed\":113,\"filed_seconds\":0.18833333333333332,\"total\":144,\"total_seconds\":0.24,\
         \"gaps\":[{\"a\":0,\"a_seconds\":0,\"b\":30,\"b_seconds\":0.05},{\"a\":71,\"a_seconds\":0.11833333333333333,\
         \"b\":72,\"b_seconds\":0.12}],\"overlaps\":[],\
                \"adds_up\":false}],\"all_good\":false,\"warnings\":[]}\n";
    assert!(json.ends_with(gaps), "{json}");
}

#[test]
fn overlaps() {
    let desk = filed_whole("overlaps");
    let ran = desk.slip("2c.slip", 2, 48, 100).check("1a.slip 1b.slip 2a.slip 2b.slip 2c.slip");
    let expected = "    2    600    144  00:00:00.240        144  00:00:00.240  does not add up\n\
        track 2: overlap from media time 48 to 100 (00:00:00.080 to 00:00:00.166), film time 52 (00:00:00.086), \
        filed by 2a.slip, 2b.slip, 2c.slip\n\
        slips say where the film lies and do not vouch for the pictures' bytes; slip --sha256 keeps their hash\n\
         every slip is good, and 1 track does not add up\n";
    assert!(ran.out.ends_with(expected), "{}", ran.out);
    assert_eq!(ran.status, 1);
    // The same slip twice: what is filed counts once.
    let ran = desk.check("1a.slip 1a.slip 1b.slip 2a.slip 2b.slip --json");
    let twice = "{\"id\":1,\"scale\":600,\"filed\":144,\"filed_seconds\":0.24,\"total\":144,\"total_seconds\":0.24,\
         \"gaps\":[],\"overlaps\":[{\"a\":0,\"a_seconds\":0,\"b\":24,\"b_seconds\":0.04}],\
                 \"adds_up\":false}";
    assert!(ran.out.contains(twice), "{}", ran.out);
    assert_eq!(ran.status, 1);
    // What one slip leaves out, another that is filed twice does not make good.
    let ran = desk.slip("1c.slip", 1, 48, 144).check("1a.slip 1a.slip 1c.slip 2a.slip 2b.slip --json");
    let both = "\"filed\":120,\"filed_seconds\":0.2,\"total\":144,\"total_seconds\":0.24,\"gaps\":[{\"a\":24,\
         \"a_seconds\":0.04,\"b\":48,\"b_seconds\":0.08}],\"overlaps\":[{\"a\":0,\"a_seconds\":0,\"b\":24,\
         \"b_seconds\":0.04}],";
    assert!(ran.out.contains(both), "{}", ran.out);
    // A slip that is not good files nothing there.
    let out = desk.slip("1d.slip", 1, 20, 30).typed("w", OF_W).check("w 1b.slip 1d.slip").out;
    assert!(out.contains(", film time 6 (00:00:00.010), filed by 1b.slip, 1d.slip\n"), "{out}");
}

/// W's slip of 24 to 73, and others made of it.
const OF_W: &str = "01 01 D8 04 18 49 02 CC 08 32 84 07 46";

#[test]
fn slips_that_are_not_the_films() {
    let desk = Desk::of_tracks("not", vec![w_track()]);
    desk.typed("w", OF_W).says("w", 1, "good");
    let says = |hex: &str, verdict: &str| desk.typed("x", hex).says("w x", 1, &format!("not good: {verdict}"));
    says("01 02 D8 04 18 49 02 CC 08 32 84 07 46", "the movie has no track 2");
    says("01 01 D7 04 18 49 02 CC 08 32 84 07 46", "its scale is 599, and the track's is 600");
    says("01 01 D8 04 18 79 02 CC 08 32 84 07 46", "b is 121, and the track ends at 120");
    says("01 01 D8 04 18 48 02 CC 08 32 84 07 46", "it has 2 pairs, and the film has 1 from a to b");
    says("01 01 D8 04 18 49 01 CC 08 32", "it has 1 pair, and the film has 2 from a to b");
    says(
        "01 01 D8 04 18 49 02 CC 08 32 84 07 45",
        "pair 2 is 69 bytes from byte 900, and the film's is 70 bytes from byte 900",
    );
    says(
        "01 01 D8 04 17 49 02 CC 08 32 84 07 46",
        "pair 1 is 50 bytes from byte 1100, and the film's is 150 bytes from byte 1000",
    );
    // The film time of such a slip is not filed.
    let ran = desk.typed("x", "01 01 D7 04 18 49 02 CC 08 32 84 07 46").check("x");
    assert!(
        ran.out.contains("    1    600      0  00:00:00.000        120  00:00:00.200  does not add up\n"),
        "{}",
        ran.out
    );
    assert!(ran.out.ends_with("\n1 slip is not good, and 1 track does not add up\n"), "{}", ran.out);
}

#[test]
fn a_slip_of_another_film() {
    let desk = filed_whole("another");
    let all = "1a.slip 1b.slip 2a.slip 2b.slip";
    let other = "not good: pair 1 is 50 bytes from byte 1100, and the film's is 16 bytes from byte 1076";
    desk.typed("w", OF_W).says(&format!("{all} w"), 1, other);
    // Every track adds up without it; still not every slip is good.
    let out = desk.check(&format!("{all} w w")).out;
    assert!(out.ends_with("\n2 slips are not good, and every track adds up\n"), "{out}");
    // The same bytes of film in another scale.
    let slow = Desk::of_tracks("slow", vec![w_with(|track| track.scale = 300)]);
    let says = "not good: its scale is 600, and the track's is 300";
    slow.typed("w", OF_W).says("w", 1, says);
    // The other hose has other bytes.
    let hose = "01 02 D8 04 00 18 01 A4 08 10";
    assert_eq!(run(&words(&format!("slip {HOSES} 1 0 24"))).out.trim(), hose.replace("01 02 D8", "01 01 D8"));
    desk.typed("2x", hose).says(
        "2x",
        1,
        "not good: pair 1 is 16 bytes from byte 1060, and the film's is 16 bytes from byte 1092",
    );
}

#[test]
fn malformed_slips() {
    let desk = Desk::of_tracks("malformed", vec![w_track()]);
    desk.typed("x", "01 01 D8 04 18 18 02 CC 08 32 84 07 46").typed("long", &format!("{OF_W} 00"));
    desk.slip("w", 1, 0, 120).finds(
        "w x long",
        1,
        "slip  track  scale  a    b  film time  hh:mm:ss.mmm  verdict\n\
         w         1    600  0  120        120  00:00:00.200  good\n\
         x         -      -  -    -          -             -  not good: malformed at place 5, b: it is 24, and must be \
         above a, which is 24\n\
         long      -      -  -    -          -             -  not good: malformed at place 13: 1 byte follows the last \
         number\n\n\
         track  scale  filed  hh:mm:ss.mmm  movie has  hh:mm:ss.mmm  verdict\n    \
             1    600    120  00:00:00.200        120  00:00:00.200  adds up\n\
         slips say where the film lies and do not vouch for the pictures' bytes; slip --sha256 keeps their hash\n\
         2 slips are not good, and every track adds up\n",
    );
    let json = desk.check("x --json").out;
    let fields = "{\"format\":1,\"file\":\"film.mov\",\"slips\":[{\"file\":\"x\",\"track\":null,\"scale\":null,\
         \"a\":null,\"a_seconds\":null,\"b\":null,\"b_seconds\":null,\"good\":false,\
                  \"fault\":\"malformed\",\"place\":5,\"reason\":\"malformed at place 5, b: it is 24, and must be \
                  above a, which is 24\",\"sha256\":false,\"retyped\":null}],\"tracks\":[";
    assert!(json.starts_with(fields), "{json}");
}

/// What is wrong, by the word that documents have for it.
#[test]
fn faults_in_documents() {
    let desk = Desk::of_tracks("faults", vec![w_track()]);
    let fault = |hex: &str, fault: &str| {
        let ran = desk.typed("x", hex).check("--json x");
        assert!(ran.out.contains(&format!("\"good\":false,\"fault\":\"{fault}\",\"place\":")), "{}", ran.out);
        assert!(ran.out.ends_with(",\"all_good\":false,\"warnings\":[]}\n"), "{}", ran.out);
        ran.status
    };
    assert_eq!(fault("01 02 D8 04 18 49 02 CC 08 32 84 07 46", "track"), 1);
    assert_eq!(fault("01 01 D7 04 18 49 02 CC 08 32 84 07 46", "scale"), 1);
    assert_eq!(fault("01 01 D8 04 18 79 02 CC 08 32 84 07 46", "stretch"), 1);
    assert_eq!(fault("01 01 D8 04 18 49 02 CC 08 32 84 07 45", "pairs"), 1);
    assert_eq!(fault("", "malformed"), 1);
    assert_eq!(fault("01 0", "unread"), 2);
}

#[test]
fn unreadable_files() {
    let desk = Desk::of_tracks("unreadable", vec![w_track()]);
    desk.slip("w", 1, 0, 120).typed("x", "01 01\nD8 O4");
    desk.says("w x", 2, "not good: cannot be read: line 2, column 4: not a pair of hex digits: there is the letter O, and the digit is 0");
    desk.says("x w", 2, "good");
    desk.says("w none", 2, "not good: cannot be read: No such file or directory");
    // Of a film that cannot be read there is nothing to say.
    let err = "chaldoref: films/none.mov: No such file or directory\n";
    let expected = Ran { out: String::new(), err: err.into(), status: 2 };
    assert_eq!(run(&["check", "films/none.mov", "films/none.slip"]), expected);
}

#[test]
fn a_film_that_is_refused() {
    let desk = Desk::of_tracks("refused", vec![w_with(|track| track.stts = vec![(5, 24)])]);
    let reason = "sample tables contradict each other";
    let why = "track 1 (ID 1), stts at byte 392: counts 5 samples, stsz 4";
    let err = format!("chaldoref: film.mov: refused 9: {reason}\nchaldoref: not proved: {why}\n");
    desk.typed("w", OF_W);
    assert_eq!(desk.check("w"), Ran { out: String::new(), err: err.clone(), status: 1 });
    let out = format!(
        "{{\"format\":1,\"file\":\"film.mov\",\"refused\":9,\"reason\":\"{reason}\",\"explanation\":\"{why}\",\"hint\":null}}\n"
    );
    assert_eq!(desk.check("--json w"), Ran { out, err, status: 1 });
}

#[test]
fn a_stored_duration_that_is_not_the_total() {
    // What was filed of the film, by whatever wrote it, is compared and added up by its samples.
    let desk = Desk::of_tracks("stored", vec![w_with(|track| track.duration = 121)]);
    desk.typed("w", OF_W).says("w", 1, "good");
    assert!(desk.check("w").out.contains("gap from media time 73 to 120"));
}

#[test]
fn nothing_to_file() {
    let desk = Desk::of_tracks("nothing", vec![empty_track(7), w_track()]);
    let ran = desk.slip("w", 1, 0, 120).check("w");
    let expected = "    7    600      0  00:00:00.000          0  00:00:00.000  nothing to file\n    \
                        1    600    120  00:00:00.200        120  00:00:00.200  adds up\n\
                    slips say where the film lies and do not vouch for the pictures' bytes; slip --sha256 keeps their hash\n\
         every slip is good, and every track adds up\n";
    assert!(ran.out.ends_with(expected), "{}", ran.out);
    assert_eq!(ran.status, 0);
    desk.typed("x", &OF_W.replacen("01 01", "01 07", 1)).says("w x", 1, "not good: b is 73, and the track ends at 0");
    let none = Desk::of_tracks("none", vec![]);
    none.typed("w", OF_W).says("w", 1, "not good: the movie has no track 1");
}

#[test]
fn standard_input() {
    let desk = Desk::of_tracks("standard", vec![w_track()]);
    let slip = desk.slip("w", 1, 0, 120).0.path("w");
    let film = std::fs::read(desk.0.path("film.mov")).unwrap();
    let ran = run_on(&film, &["check", "-", slip.to_str().unwrap()]);
    assert_eq!((ran.err.as_str(), ran.status), ("", 0));
    let ran = run_on(&std::fs::read(&slip).unwrap(), &["check", W, "-"]);
    assert!(ran.out.lines().nth(1).unwrap().starts_with("standard input      1    600  0  120 "), "{}", ran.out);
    assert_eq!(ran.status, 0);
}

/// The status is the verdict also where the report is not read to its end.
#[test]
fn output_that_no_one_reads() {
    let desk = filed_whole("pipe");
    for (slips, status) in [("1a.slip 1b.slip 2a.slip 2b.slip", 0), ("1a.slip", 1), ("1a.slip none.slip", 2)] {
        let (reader, writer) = std::io::pipe().unwrap();
        drop(reader);
        let film = desk.0.path("film.mov");
        let mut command = program(&["check", film.to_str().unwrap()]);
        command.args(words(slips)).current_dir(film.parent().unwrap()).stdout(writer);
        let output = command.output().unwrap();
        assert_eq!((output.status.code(), output.stderr), (Some(status), vec![]), "{slips}");
    }
}

#[test]
fn output_that_cannot_be_written() {
    let desk = filed_whole("full");
    let slip = desk.0.path("1a.slip");
    let full = Stdio::from(File::options().write(true).open("/dev/full").unwrap());
    let output = program(&["check", HOSES, slip.to_str().unwrap()]).stdout(full).output().unwrap();
    let err = "chaldoref: standard output: No space left on device\n";
    assert_eq!((output.status.code(), String::from_utf8(output.stderr).unwrap()), (Some(2), err.to_string()));
}

/// A film without any slip: all of it is unfiled.
#[test]
fn no_slips() {
    let desk = Desk::of_hoses("no-slips");
    let note = "slips say where the film lies and do not vouch for the pictures' bytes; slip --sha256 keeps their hash";
    desk.finds(
        "",
        1,
        &format!(
            "track  scale  filed  hh:mm:ss.mmm  movie has  hh:mm:ss.mmm  verdict\n    \
                 1    600      0  00:00:00.000        144  00:00:00.240  does not add up\n    \
                 2    600      0  00:00:00.000        144  00:00:00.240  does not add up\n\
             track 1: gap from media time 0 to 144 (00:00:00.000 to 00:00:00.240), film time 144 (00:00:00.240)\n\
             track 2: gap from media time 0 to 144 (00:00:00.000 to 00:00:00.240), film time 144 (00:00:00.240)\n\
             {note}\n\
             no slip is given, and 2 tracks do not add up\n"
        ),
    );
    assert!(desk.check("--json").out.contains("\"slips\":[],\"tracks\":[{"));
}

/// A slip that was typed wrongly at one place: which byte is told, and that this is not proved.
#[test]
fn retyped_slips() {
    let desk = Desk::of_tracks("retyped", vec![w_track()]);
    let said = |hex: &str| {
        let out = desk.typed("x", hex).check("x").out;
        let line = out.lines().find_map(|line| line.strip_prefix("x: not proved: "));
        line.unwrap_or_default().to_string()
    };
    assert_eq!(
        said(&OF_W.replace("18 49", "18 94")),
        "byte 5: 94 read as 49 makes it this film's slip (bytes are counted from 0)"
    );
    assert_eq!(
        said(&OF_W.replace("84 07 46", "84 07 64")),
        "byte 12: 64 read as 46 makes it this film's slip (bytes are counted from 0)"
    );
    assert_eq!(
        said(&OF_W.replace("CC 08", "08 CC")),
        "bytes 7 and 8: 08 CC read as CC 08 makes it this film's slip (bytes are counted from 0)"
    );
    assert_eq!(
        said(&OF_W.replace("01 01 D8", "01 07 D8")),
        "byte 1: 07 read as 01 makes it this film's slip (bytes are counted from 0)"
    );
    // Nothing is said of a good slip, nor where no change of one byte mends it, nor where several would.
    for hex in [OF_W, &OF_W.replace("49 02", "48 01"), &OF_W.replace("84 07 46", ""), &OF_W.replace("18 49", "18 10")] {
        assert_eq!(said(hex), "", "{hex}");
    }
    let json = desk.typed("x", &OF_W.replace("18 49", "18 94")).check("x --json").out;
    let words = "\"retyped\":{\"words\":\"byte 5: 94 read as 49 makes it this film's slip (bytes are counted from 0)\",\"proved\":false}";
    assert!(json.contains(words), "{json}");
}

/// Arguments in each other's place are told apart.
#[test]
fn a_film_in_the_place_of_a_slip() {
    let desk = Desk::of_tracks("swapped", vec![w_track()]);
    desk.slip("w.slip", 1, 0, 120).typed("hex.slip", OF_W);
    desk.says("film.mov", 1, "not good: this is a film, not a slip");
    for slip in ["w.slip", "hex.slip"] {
        let ran = run_in(&desk.0, &format!("check {slip} film.mov"));
        let hint = "chaldoref: hint: this is a slip, not a film; the film stands first\n";
        assert!(ran.err.ends_with(hint) && ran.status == 1, "{}", ran.err);
    }
    let ran = run_in(&desk.0, "read-slip film.mov");
    assert!(ran.err.ends_with("chaldoref: hint: this is a film, not a slip\n"), "{}", ran.err);
}
