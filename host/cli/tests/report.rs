//! `chaldoref report` and `chaldoref rates`: the page is well-formed, its numbers are the library's, and it takes the place of no film.
mod common;

use chaldoref::{Feature, MediaTime, Movie};
use common::{answers, program, run, run_in, words, Folder, Ran};
use reference::film::{self, atom, picture, w_track, Sizes, Track};
use reference::made::movie;
use reference::maker::{self, limits, Random};
use std::fs;
use std::time::Instant;

/// Samples a second, and how many seconds.
const FRAMES: u32 = 25;
const SECONDS: u32 = 75;

/// A universal record of a profile.
fn universal(code: &[u8; 4], value: u32) -> [u32; 4] {
    [0, 0x2020_2020, u32::from_be_bytes(*code), value]
}

/// A hose of 75 seconds, a chunk a second, whose camera claims a highest bit rate.
fn hose(id: u32, claim: u32) -> Track {
    let samples = FRAMES * SECONDS;
    let wave = |i: u32| f64::from(i * id).mul_add(0.004, f64::from(id)).sin() + f64::from(i % 40) / 80.0;
    let size = |i: u32| if i % FRAMES == 0 { 2000 } else { (500.0 + 300.0 * wave(i)) as u32 };
    let sizes: Vec<u32> = (0..samples).map(size).collect();
    let chunk = |second: u32| 60_000 + (2 * second + id - 1) * 30_000;
    Track {
        id,
        duration: samples * 24,
        descriptions: vec![picture(640, 480)],
        stts: vec![(samples, 24)],
        stsc: vec![(1, FRAMES, 1)],
        stsz: Sizes::Each(sizes),
        stco: (0..SECONDS).map(chunk).collect(),
        profile: Some(vec![universal(b"mvbr", claim)]),
        ..w_track()
    }
}

/// Two hoses: what the camera of the first claims is true, and of the second not.
fn hoses() -> Vec<u8> {
    let tracks = movie(&[hose(1, 200_000), hose(2, 160_000)]);
    film::Movie { duration: SECONDS * 600, ..tracks }.file_of(4_700_000).bytes()
}

/// The page of some arguments, made at one time, and what was printed.
fn page(folder: &Folder, line: &str) -> (String, Ran) {
    let ran = Ran::new(
        program(&words(&format!("report {line} -o page.html")))
            .current_dir(folder.path(""))
            .env("SOURCE_DATE_EPOCH", "1795000000")
            .output()
            .unwrap(),
    );
    (fs::read_to_string(folder.path("page.html")).unwrap_or_default(), ran)
}

/// A small reader of XML: tags nest, attributes are quoted, no name is given twice, and `<` and `&` stand only where they may.
fn well_formed(page: &str) {
    let mut open: Vec<&str> = Vec::new();
    let mut rest = page.strip_prefix("<!DOCTYPE html>").expect("a page begins so");
    while let Some(at) = rest.find('<') {
        text(&rest[..at]);
        let end = rest[at..].find('>').expect("a tag ends") + at;
        let tag = &rest[at + 1..end];
        rest = &rest[end + 1..];
        if let Some(name) = tag.strip_prefix('/') {
            assert_eq!(open.pop(), Some(name));
            continue;
        }
        let (tag, is_closed) = tag.strip_suffix('/').map_or((tag, false), |tag| (tag, true));
        let name = tag.split(' ').next().unwrap();
        assert!(!name.is_empty() && name.chars().all(|c| c.is_ascii_alphanumeric()), "<{tag}>");
        attributes(&tag[name.len()..]);
        if !is_closed {
            open.push(name);
        }
    }
    text(rest);
    assert_eq!(open, [""; 0]);
}

fn attributes(all: &str) {
    let (mut rest, mut names) = (all, Vec::new());
    while !rest.trim_start().is_empty() {
        let (name, value) = rest.trim_start().split_once("=\"").expect("an attribute has a value in quotes");
        assert!(name.chars().all(|c| c.is_ascii_alphanumeric() || "-:".contains(c)) && !names.contains(&name), "{all}");
        names.push(name);
        let (value, after) = value.split_once('"').expect("a value ends");
        text(value);
        rest = after;
    }
}

fn text(words: &str) {
    for after in words.split('&').skip(1) {
        let entity = after.split_once(';').map(|(entity, _)| entity);
        assert!(matches!(entity, Some("amp" | "lt" | "gt" | "quot" | "#39")), "{words}");
    }
    assert!(words.chars().all(|c| c == '\n' || !c.is_control()) && !words.contains('<'), "{words}");
}

#[test]
fn two_hoses_with_a_gap() {
    let folder = Folder::new("report");
    folder.file("berth7.mov", &hoses());
    for line in ["1 start end -o 1a.slip", "2 start 25s -o 2a.slip", "2 23s 40s -o 2b.slip", "2 50s end -o 2c.slip"] {
        assert_eq!(run_in(&folder, &format!("slip berth7.mov {line}")).status, 0);
    }
    let line = "berth7.mov --slips 1a.slip 2a.slip 2b.slip 2c.slip";
    let (made, ran) = page(&folder, line);
    let out = "page.html: the report of 1 film\n";
    assert_eq!(ran, Ran { out: out.into(), err: String::new(), status: 0 });
    well_formed(&made);
    for words in [
        "track 1: everything is filed",
        "track 2: 00:00:10.000 of film is not filed, from 00:00:40.000 to 00:00:50.000",
        "track 2: gap from media time 24000 to 30000 (00:00:40.000 to 00:00:50.000), film time 6000 (00:00:10.000)",
        ", filed by 2a.slip, 2b.slip",
        "every slip is good, and 1 track does not add up.",
        "(mvbr): true",
        "(mvbr): not true",
        "the profile of track 2 is not true: record 1 is the first at fault.",
        "quay film profile: kept",
        "made 2026-11-18 11:06:40 UTC",
    ] {
        assert!(made.contains(words), "{words}");
    }
    // What the commands print of the film stands on the page.
    let features = run_in(&folder, "features berth7.mov 2").out;
    let peak = features.lines().last().unwrap().strip_prefix("peak of mvbr: ").unwrap();
    assert!(made.contains(peak), "{peak}");
    let checked = run_in(&folder, "check berth7.mov 1a.slip 2a.slip 2b.slip 2c.slip").out;
    checked
        .lines()
        .filter(|line| line.starts_with("track 2: "))
        .for_each(|line| assert!(made.contains(line), "{line}"));
    assert_eq!(page(&folder, line).0, made);
    assert!(made.len() < LARGEST);
    keep("two-hoses", &made);
}

/// A page of one film has fewer bytes.
const LARGEST: usize = 400_000;

/// Where the variable names a folder, a page is kept there, for host/check-report, which opens it in a browser.
fn keep(name: &str, page: &str) {
    if let Ok(to) = std::env::var("CHALDOREF_KEEP_REPORT") {
        fs::create_dir_all(&to).unwrap();
        fs::write(format!("{to}/{name}.html"), page).unwrap();
    }
}

/// A record that claims no bit rate and is not true stands beside the peak, whatever the other records say.
#[test]
fn untrue_beside_bit_rates() {
    let folder = Folder::new("untrue");
    let both = Track { profile: Some(vec![universal(b"mvbr", 200_000), universal(b"vfps", 1)]), ..hose(1, 0) };
    let frames = Track { profile: Some(vec![universal(b"vfps", 1)]), ..hose(2, 0) };
    let tracks = film::Movie { duration: SECONDS * 600, ..movie(&[both, frames]) };
    folder.file("f.mov", &tracks.file_of(4_700_000).bytes());
    let (page, ran) = page(&folder, "f.mov");
    assert_eq!((ran.status, ran.err.as_str()), (0, ""));
    for words in
        ["(mvbr): true; its vfps in the profile: not true", "claims no bit rate; its vfps in the profile: not true"]
    {
        assert!(page.contains(words), "{words}");
    }
    let good =
        page.split("class=\"good\"").skip(1).filter(|rest| rest.split("</span>").next().unwrap().contains("Mbit/s"));
    assert_eq!(good.count(), 0);
}

/// The greatest value that is drawn of each track is the library's highest bit rate, and so is that of the series.
#[test]
fn the_greatest_drawn_is_the_librarys() {
    let folder = Folder::new("report-rates");
    let mut films =
        vec![hoses(), fs::read("../../films/w.mov").unwrap(), fs::read("../../films/two-hoses.mov").unwrap()];
    films.push(fs::read("../../films/w-edits.mov").unwrap());
    films.extend((0..60).map(|index| maker::valid(&mut Random::of(37, index))));
    films.extend((0..20).map(|index| maker::claims::claiming(&mut Random::of(38, index))));
    films.retain(|film| Movie::open(&film[..]).is_ok());
    let names: Vec<String> = (0..films.len()).map(|i| format!("{i}.mov")).collect();
    names.iter().zip(&films).for_each(|(name, film)| drop(folder.file(name, film)));
    let (made, ran) = page(&folder, &names.join(" "));
    assert_eq!((ran.status, &ran.err[..]), (0, ""));
    well_formed(&made);
    let sections: Vec<&str> = made.split("<section ").skip(1).collect();
    assert_eq!(sections.len(), films.len());
    let mut compared = 0;
    for ((film, name), section) in films.iter().zip(&names).zip(sections) {
        let movie = Movie::open(&film[..]).unwrap();
        let rates = section.split_once("<h3>Bit rate over time</h3>").unwrap().1.split_once("<h3>").unwrap().0;
        for (track, picture) in movie.tracks().iter().zip(rates.split("<h4>").skip(1)) {
            let drawn = picture.split_once("data-greatest=\"").map(|(_, n)| n.split_once('"').unwrap().0.to_string());
            let series = run_in(&folder, &format!("rates {name} {} --csv", track.id)).out;
            let greatest = series
                .lines()
                .skip(1)
                .map(|line| line.rsplit(',').next().unwrap())
                .max_by_key(|n| n.parse::<u64>().unwrap());
            assert_eq!(drawn.as_deref(), greatest, "{name}");
            let highest = [Feature::HighestVideoBitRate, Feature::HighestAudioBitRate];
            for rate in highest.into_iter().filter_map(|feature| movie.feature(track.id, feature).ok()) {
                assert_eq!(drawn, Some(rate.to_string()), "{name}");
                compared += 1;
            }
        }
    }
    assert!(compared > 40, "{compared}");
}

#[test]
fn rates() {
    answers("rates films/w.mov 1 --csv", "time,first,last,bytes,duration,rate\n0,1,4,220,120,8800\n");
    answers(
        "rates films/two-hoses.mov 2",
        "media time  hh:mm:ss.mmm  first sample  last sample       bytes    duration  bits a second\n         \
         0  00:00:00.000             1            6          96         144           3200\n",
    );
    let folder = Folder::new("rates");
    // From the last sample no run gets there; a sample of duration 0 begins one too.
    let track = Track {
        duration: 2000,
        stts: vec![(1, 500), (1, 0), (1, 600), (1, 601), (1, 299)],
        stsc: vec![(1, 5, 1)],
        stsz: Sizes::Each(vec![10, 20, 30, 40, 50]),
        stco: vec![1000],
        ..w_track()
    };
    folder.file("x.mov", &movie(&[track]).file_of(4096).bytes());
    let series = run_in(&folder, "rates x.mov 1 --csv").out;
    let lines = ["0,1,3,60,1100,262", "500,2,3,50,600,400", "500,3,3,30,600,240", "1100,4,4,40,601,320"];
    assert_eq!(series, format!("time,first,last,bytes,duration,rate\n{}\n", lines.join("\n")));
    let refused = run(&words("rates films/w.mov 7"));
    assert!(refused.err.starts_with("chaldoref: films/w.mov: refused 14: no track has that ID\n"));
}

#[test]
fn names_stay_text() {
    let folder = Folder::new("report-names");
    let (film, slip) = ("<script>alert(1)&\"'.mov", "<img src=x onerror=y>.slip");
    let mut named = movie(&[hose(1, 200_000), hose(2, 160_000)]).file_of(4_700_000);
    let handler = [&[0; 8][..], b"vide", &[0; 12], b"<b onclick=alert(2)>\0"].concat();
    named.replace("moov trak mdia hdlr", atom("hdlr", &handler));
    folder.file(film, &named.bytes());
    let long = format!("{}.mov", "quay7".repeat(50));
    folder.file(&long, &fs::read("../../films/w.mov").unwrap());
    let wrote = program(&["slip", film, "1", "-o", slip]).current_dir(folder.path("")).output().unwrap();
    assert!(wrote.status.success());
    folder.file("\u{202e}\u{1b}[2J.mov", b"x");
    let ran = program(&["report", film, "\u{202e}\u{1b}[2J.mov", &long, "-o", "page.html", "--slips", slip])
        .current_dir(folder.path(""))
        .output()
        .unwrap();
    assert_eq!(ran.status.code(), Some(1));
    let made = fs::read_to_string(folder.path("page.html")).unwrap();
    well_formed(&made);
    keep("hostile-names", &made);
    let unbroken = made.replace("<wbr/>", "");
    for name in ["<script>alert(1)&\"'.mov", "<img src=x onerror=y>.slip", "<b onclick=alert(2)>", &long] {
        let name = name.replace('&', "&amp;").replace('<', "&lt;").replace('>', "&gt;").replace('"', "&quot;");
        assert!(unbroken.contains(&name.replace('\'', "&#39;")), "{name}");
    }
    assert!(!made.contains("<script") && !made.contains("<img") && !made.contains("<b on") && !made.contains('\u{1b}'));
}

#[test]
fn refused_and_unread_films_have_their_rows() {
    let folder = Folder::new("report-refused");
    folder.file("good.mov", &hoses());
    folder.file("cut.mov", &hoses()[..3000]);
    let refused = run_in(&folder, "tracks cut.mov").err;
    let (made, ran) = page(&folder, "good.mov cut.mov");
    assert_eq!((ran.err, ran.status), (refused.clone(), 1));
    assert_eq!(ran.out, "page.html: the report of 2 films, 1 of them not read\n");
    well_formed(&made);
    let first = refused.lines().next().unwrap().strip_prefix("chaldoref: cut.mov: ").unwrap().replace('\'', "&#39;");
    assert_eq!(made.matches(&first).count(), 2, "{first}");
    assert!(made.contains("hint: "));
    keep("damaged", &made);
    let (made, ran) = page(&folder, "missing.mov good.mov");
    assert_eq!((ran.status, made.contains("No such file or directory")), (2, true));
}

#[test]
fn never_over_a_film_or_a_slip() {
    let folder = Folder::new("report-over");
    let film = hoses();
    folder.file("x.mov", &film);
    assert_eq!(run_in(&folder, "slip x.mov 1 -o 1.slip --sha256").status, 0);
    let slip = fs::read(folder.path("1.slip")).unwrap();
    std::os::unix::fs::symlink("x.mov", folder.path("link.html")).unwrap();
    for (out, what) in [("x.mov", "film"), ("link.html", "film"), ("1.slip", "slip"), ("1.slip.sha256", "slip")] {
        let ran = run_in(&folder, &format!("report x.mov --slips 1.slip -o {out}"));
        let err = format!("chaldoref: {out}: this is one of the {what}s\n");
        assert_eq!(ran, Ran { out: String::new(), err, status: 2 });
    }
    assert!(fs::read(folder.path("x.mov")).unwrap() == film && fs::read(folder.path("1.slip")).unwrap() == slip);
    // A folder that is not there: nothing is left behind.
    let ran = run_in(&folder, "report x.mov -o none/page.html");
    assert_eq!((ran.status, fs::read_dir(folder.path("")).unwrap().count()), (2, 4));
    for line in ["report x.mov", "report x.mov -o -", "report x.mov --slips -o page.html", "report -o page.html"] {
        assert_eq!(run_in(&folder, line).status, 2, "{line}");
    }
}

#[test]
fn several_films_and_slips() {
    let folder = Folder::new("report-several");
    folder.file("a.mov", &hoses());
    folder.file("w.mov", &fs::read("../../films/w.mov").unwrap());
    folder.file("e.mov", &fs::read("../../films/w-edits.mov").unwrap());
    assert_eq!(run_in(&folder, "slip a.mov 1 -o a.slip").status, 0);
    assert_eq!(run_in(&folder, "slip a.mov 2 0 600 -o other.slip").status, 0);
    folder.file("bad.slip", b"01 02 03");
    let (made, ran) = page(&folder, "w.mov a.mov e.mov --slips a.slip bad.slip");
    assert_eq!(ran.status, 0);
    well_formed(&made);
    let sections: Vec<&str> = made.split("<section ").collect();
    let (head, w, a, e) = (sections[0], sections[1], sections[2], sections[3]);
    assert!(head.contains("Slips that are not good") && head.contains("bad.slip") && !head.contains("<bdi>a.slip"));
    assert!(!w.contains("a.slip") && w.contains("no slip is good of this film") && w.contains("rule 6 "));
    assert!(a.contains("a.slip") && a.contains("track 1: everything is filed"));
    assert!(e.contains("nothing shown") || e.contains("shows media from"));
    keep("several", &made);
    // Of one film too they stand before its section.
    let (made, _) = page(&folder, "a.mov --slips a.slip bad.slip none.slip");
    let head = made.split("<section ").next().unwrap();
    assert!(head.contains("bad.slip") && head.contains("none.slip") && !head.contains("<bdi>a.slip"));
    let (made, _) = page(&folder, "e.mov --leave-out edits");
    assert!(made.contains("the film was read without the edit lists") && made.contains("no slip is given"));
}

/// A film that is read in part does not pass as whole.
#[test]
fn films_read_in_part() {
    let folder = Folder::new("report-in-part");
    folder.file("x.mov", &hoses());
    let moof = [&[0, 0, 0, 8][..], b"moof", &[0, 0, 0, 9], b"mdat", &[0]].concat();
    folder.file("f.mov", &[hoses(), moof].concat());
    let mut announcing = reference::hoses::two_hoses();
    announcing.push("moov", atom("mvex", &[]));
    folder.file("a.mov", &announcing.bytes());
    assert_eq!(run_in(&folder, "slip x.mov 1 -o 1.slip").status, 0);
    assert_eq!(run_in(&folder, "slip a.mov 1 -o a1.slip").status, 0);
    let announces = "it announces fragments, and none is in this file";
    for (line, words, accepted) in [
        ("x.mov --slips 1.slip --leave-out track=2", "track 2 was left out", "accepted, and read in part"),
        ("f.mov", "1 bytes of film in fragments are not read", "accepted, and read in part"),
        ("a.mov --slips a1.slip", announces, &format!("accepted; {announces}")),
    ] {
        let (made, _) = page(&folder, line);
        let (head, section) = made.split_once("<section ").unwrap();
        for part in [head, section] {
            let words = format!("the film does not add up: {words}");
            assert!(part.contains(&words) && part.contains("the film was not judged whole"), "{line}");
        }
        assert!(head.contains(accepted) && !head.contains("</b> kept"), "{line}");
    }
    // Side by side they are told apart.
    let (made, _) = page(&folder, "f.mov a.mov --slips 1.slip a1.slip");
    for words in [
        "track 1: what was read is filed, but film in fragments is not read",
        "track 1: what was read is filed, but the film announces fragments, and none is in this file",
        "not judged whole: what lies in fragments was not judged",
        "not judged whole: it announces fragments, and none is in this file",
    ] {
        assert_eq!(made.matches(words).count(), if words.starts_with("track") { 1 } else { 2 }, "{words}");
    }
    keep("read-in-part", &made);
}

/// A film of 16 tracks whose rates change with every sample, and of more slips than can be named: its page stays small.
#[test]
fn sixteen_tracks_and_many_slips() {
    let folder = Folder::new("report-sixteen");
    let mut random = Random::new(16);
    let mut track = |id: u32| {
        let sizes = (0..FRAMES * SECONDS).map(|_| random.below(1200) as u32).collect();
        let (one, edits) = (hose(id, 100_000 + 20_000 * id), (0..100).map(|i| (30, i * 30, 0x10000)).collect());
        let stco = (0..SECONDS).map(|second| 600_000 + (16 * second + id - 1) * 30_000).collect();
        Track { stsz: Sizes::Each(sizes), stco, edits: Some(edits), ..one }
    };
    let tracks: Vec<Track> = (1..=16).map(&mut track).collect();
    let film = film::Movie { duration: 3000, ..movie(&tracks) }.file_of(37_000_000).bytes();
    folder.file("x.mov", &film);
    let opened = Movie::open(&film[..]).unwrap();
    let mut names = Vec::new();
    for track in opened.tracks() {
        for i in 0..60 {
            let (start, name) = (i * 700, format!("{}-{}-{i}.slip", "'".repeat(200), track.id));
            folder.file(&name, &opened.write_slip(track.id, MediaTime(start)..MediaTime(start + 750)).unwrap());
            names.push(name);
        }
    }
    let (made, ran) = page(&folder, &format!("x.mov --slips {}", names.join(" ")));
    assert_eq!((ran.status, ran.err.as_str(), made.len() < LARGEST), (0, "", true), "{}", made.len());
    well_formed(&made);
    assert!(made.contains("60 slips, too many to name them in the picture.") && made.contains("prints all</p>"));
    assert!(made.contains("<div>tracks 1 to 16: 00:01:15.000</div>") && made.contains("other tracks: lower, and "));
    keep("sixteen-tracks", &made);
}

/// A film at its limits takes little memory and time, and makes a small page.
#[test]
fn a_million_samples() {
    let folder = Folder::new("report-limit");
    let film = limits::limit(&mut Random::new(1), 0);
    assert!(Movie::open(&film[..]).unwrap().tracks().iter().any(|track| track.samples == 1_048_576));
    folder.file("limit.mov", &film);
    let begin = Instant::now();
    let (made, ran) = page(&folder, "limit.mov");
    assert_eq!((ran.status, made.len() < LARGEST), (0, true), "{}", made.len());
    assert!(begin.elapsed().as_secs() < 60);
    well_formed(&made);
    keep("a-million-samples", &made);
}

/// Films of a quarter in folders with long names, some of them cut off, and slips of one.
#[test]
fn five_hundred_films() {
    let folder = Folder::new("report-many");
    let films = ["w-edits.mov", "two-hoses.mov", "w.mov"].map(|name| fs::read(format!("../../films/{name}")).unwrap());
    let name = |i: usize| format!("quay-7/2026-{:02}/berth_{}-discharge-{i:05}.mov", i / 50 + 1, i % 9);
    (0..10).for_each(|month| fs::create_dir_all(folder.path(format!("quay-7/2026-{:02}", month + 1))).unwrap());
    for i in 0..500 {
        let film = &films[i % 3];
        folder.file(name(i), if i % 100 == 99 { &film[..film.len() / 2] } else { film });
    }
    assert_eq!(run_in(&folder, &format!("slip {} 2 0 96 -o hose-2.slip", name(1))).status, 0);
    let names: Vec<String> = (0..500).map(name).collect();
    let (made, ran) = page(&folder, &format!("{} --slips hose-2.slip", names.join(" ")));
    assert_eq!((ran.status, ran.err.matches(": refused ").count()), (1, 5));
    well_formed(&made);
    assert_eq!(made.matches("<section ").count(), 500);
    let unbroken = made.replace("<wbr/>", "");
    assert!(unbroken.find(&name(498)).unwrap() < unbroken.find("<section ").unwrap());
    keep("500-films", &made);
}
