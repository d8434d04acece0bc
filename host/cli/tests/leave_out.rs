//! Films read with parts left out, and the hints that name them.
mod common;

use common::{run, run_on, words, Folder, Ran};
use reference::film::{atom, co64, file, stco, w, w_movie, w_track, Movie, Sizes, Track};
use reference::made::{edits, movie, sound_track, track, w_with};

/// A film of those tracks.
fn film_of(tracks: &[Track]) -> Vec<u8> {
    movie(tracks).file_of(4096).bytes()
}

/// A track with B-frames whose edit list ends past its samples.
fn b_frames(id: u32) -> Track {
    track(id, |track| (track.ctts, track.edits) = (Some(vec![(4, 24)]), edits(&[(120, 12)])))
}

/// The hint under the refusal of a film.
fn hint(film: &[u8]) -> String {
    let ran = run_on(film, &["tracks", "-"]);
    assert_eq!((ran.out.as_str(), ran.status), ("", 1));
    let hint = ran.err.lines().find_map(|line| line.strip_prefix("chaldoref: hint: "));
    hint.unwrap_or_default().to_string()
}

#[test]
fn without_its_edits_a_film_is_read() {
    let film = film_of(&[b_frames(1)]);
    let note = "chaldoref: standard input is read without the edit lists";
    let listed = run_on(&film, &words("tracks - --leave-out edits"));
    assert_eq!((listed.err, listed.status), (format!("{note}\n"), 0));
    assert_eq!(listed.out, run_on(&film_of(&[w_track()]), &["tracks", "-"]).out);
    let json = run_on(&film, &words("tracks - --leave-out edits --json")).out;
    assert!(json.starts_with("{\"format\":1,\"file\":\"-\",\"left_out\":[\"edits\"],\"movie\":"), "{json}");
    // A slip says how it was written; the report of its check too.
    let folder = Folder::new("left-out");
    let slip = folder.path("x.slip");
    let slip = slip.to_str().unwrap();
    let filed = run_on(&film, &["slip", "-", "1", "-o", slip, "--leave-out", "edits"]);
    assert!(filed.err.starts_with(&format!("{note}; check this slip with the same --leave-out\n")), "{}", filed.err);
    assert_eq!(run_on(&film, &["check", "-", slip]).status, 1);
    let checked = run_on(&film, &["check", "-", slip, "--leave-out", "edits"]);
    assert!(checked.out.contains("\nthe film was read without the edit lists\n"), "{}", checked.out);
    assert_eq!(checked.status, 0);
}

#[test]
fn without_a_track_the_others_are_read() {
    let film = film_of(&[w_track(), sound_track(7, [8, 16, 24])]);
    let note = |parts: &str| format!("chaldoref: standard input is read without {parts}\n");
    let ran = run_on(&film, &words("tracks - --leave-out track=7"));
    assert_eq!((ran.err, ran.out), (note("track 7"), run(&["tracks", "films/w.mov"]).out));
    let both = run_on(&film, &words("tracks - --leave-out track=7 --leave-out edits --leave-out track=7"));
    assert_eq!((both.err, both.status), (note("track 7 and the edit lists"), 0));
    let json = run_on(&film, &words("at - 7 0 --leave-out track=7 --json"));
    assert!(
        json.out.starts_with("{\"format\":1,\"file\":\"-\",\"left_out\":[\"track=7\"],\"refused\":14,"),
        "{}",
        json.out
    );
    assert_eq!(run_on(&film, &words("tracks - --leave-out track=0x7")).out, run(&["tracks", "films/w.mov"]).out);
    let none = run_on(&film, &words("tracks - --leave-out track=2"));
    let err = "chaldoref: standard input: refused 14: no track has that ID\n\
               chaldoref: hint: --leave-out track=2: the film has no such track\n";
    assert_eq!(none, Ran { out: String::new(), err: err.into(), status: 1 });
}

/// Every command that asks a film takes the option, and a film that has no edits is answered as without it.
#[test]
fn every_command_takes_it() {
    for line in [
        "tracks FILM",
        "sample FILM 1 2",
        "sample FILM 1 2 --bytes",
        "samples FILM 1 --csv",
        "at FILM 1 24",
        "map FILM 1 60",
        "edits FILM 1",
        "stretch FILM 1 24 73",
        "stretch FILM 1 --bytes",
        "slip FILM 1 24 73",
        "check FILM",
        "features FILM",
        "profile FILM",
        "check-profile FILM 1",
    ] {
        let line = line.replace("FILM", "films/two-hoses.mov");
        let (plain, left_out) = (run(&words(&line)), run(&words(&format!("{line} --leave-out edits"))));
        let report = plain.out.replace("slips say", "the film was read without the edit lists\nslips say");
        let expected = if line.starts_with("check ") { &report } else { &plain.out };
        assert_eq!((&left_out.out, left_out.status), (expected, plain.status), "{line}");
        assert!(left_out.err.contains("is read without the edit lists"), "{line}: {}", left_out.err);
    }
    // The profile has a rule about edits.
    let quay = run(&words("check-quay films/two-hoses.mov --leave-out edits"));
    let judged = "what was read keeps the quay film profile; the film was not judged whole: the edit lists left out\n";
    assert_eq!((quay.out.as_str(), quay.status), (judged, 1));
    let table = run(&words("check-quay films/w.mov films/two-hoses.mov --leave-out edits"));
    assert_eq!(table.err, "chaldoref: the films are read without the edit lists\n");
}

#[test]
fn hints_for_b_frames() {
    let words =
        "track 1 has B-frames, and its edit list ends 12 units past its samples (at 00:00:00.220, and they end at \
                 00:00:00.200). The film is not damaged. Keep it as it is; read it with --leave-out edits, or ask the \
                 camera's maker for films without B-frames.";
    assert_eq!(hint(&film_of(&[b_frames(1)])), words);
    let json = run_on(&film_of(&[b_frames(1)]), &["tracks", "-", "--json"]).out;
    assert!(json.ends_with(&format!(",\"hint\":{{\"words\":\"{words}\",\"proved\":false}}}}\n")), "{json}");
    let plain = w_with(|track| track.edits = edits(&[(121, 0)]));
    let said = hint(&film_of(&[plain]));
    assert!(
        said.starts_with("the edit list of track 1 ends 1 units past its samples") && !said.contains("B-frames"),
        "{said}"
    );
    // With a ctts too, what is wrong is told, and nothing about B-frames.
    for (list, what) in [
        (edits(&[(0, 0)]), "track 1 has an edit of duration 0, which shows nothing."),
        (Some(vec![(60, 0, 32768)]), "track 1 has an edit that is shown at another speed than its own."),
        (edits(&[(60, -2)]), "track 1 has an edit that begins before its media."),
        (Some(vec![]), "the edit list of track 1 is empty."),
    ] {
        let said = hint(&film_of(&[track(1, |track| (track.ctts, track.edits) = (Some(vec![(4, 24)]), list))]));
        assert!(said.starts_with(what) && !said.contains("B-frames"), "{said}");
        assert!(said.contains("read it with --leave-out edits"), "{said}");
    }
}

#[test]
fn hints_for_versions() {
    for (path, what, ask) in [
        (
            "mdia mdhd",
            "the mdhd of track 1 has version 1, with times of 64 bits, and only version 0 is read.",
            "version 0",
        ),
        (
            "mdia minf stbl ctts",
            "track 1 has B-frames with negative offsets (a ctts of version 1), and only version 0 is read.",
            "without B-frames",
        ),
        ("mdia minf stbl stts", "the stts of track 1 has version 1, and only version 0 is read.", "version 0"),
    ] {
        let mut film = movie(&[track(1, |track| track.ctts = Some(vec![(4, 24)]))]).file_of(4096);
        film.at(&format!("moov trak {path}")).body[0] = 1;
        let said = hint(&film.bytes());
        assert!(said.starts_with(what) && said.contains("it stays refused here") && said.contains(ask), "{said}");
        assert_eq!(said.contains("B-frames"), path.ends_with("ctts"), "{said}");
    }
    // An edit list can be left out, and so can a track of sound.
    let mut film = movie(&[w_with(|track| track.edits = edits(&[(60, 0)]))]).file_of(4096);
    film.at("moov trak edts elst").body[0] = 1;
    assert!(hint(&film.bytes()).contains("read it with --leave-out edits, or ask"));
    let mut film = movie(&[w_track(), sound_track(2, [8, 16, 24])]).file_of(4096);
    film.at("moov trak:1 mdia mdhd").body[0] = 1;
    assert!(hint(&film.bytes()).contains("read it with --leave-out track=2, or ask"));
}

/// Sound of 48,000 samples a second passes the limit after 21.8 seconds.
#[test]
fn hints_for_limits() {
    let many = |id, subtype: &[u8; 4], scale| Track {
        id,
        subtype: *subtype,
        scale,
        duration: 1_440_000,
        stts: vec![(1_440_000, 1)],
        stsz: Sizes::Common(1, 1_440_000),
        stsc: vec![(1, 1_440_000, 1)],
        stco: vec![8],
        descriptions: vec![reference::film::description(b"twos", 36)],
        ..w_track()
    };
    let film = film_of(&[w_track(), many(2, b"soun", 48_000)]);
    assert_eq!(
        hint(&film),
        "track 2 (sound) has 1,440,000 samples, and a track may have 1,048,576, which are reached after 21.8 s. The film is \
         not damaged. Keep it as it is; read it with --leave-out track=2, or ask the camera's maker for films with \
         compressed sound, or none."
    );
    assert_eq!(run_on(&film, &words("tracks - --leave-out track=2")).status, 0);
    let said = hint(&film_of(&[many(1, b"vide", 25)]));
    assert!(said.starts_with("track 1 (video) has 1,440,000 pictures"), "{said}");
    assert!(said.contains("reached after 11:39:03.040") && said.contains("it stays refused here"), "{said}");
}

#[test]
fn hints_for_files_that_are_cut_off() {
    let film = w().bytes();
    for (cut, missing) in [(1, "1 byte is"), (100, "100 bytes are"), (2000, "2,000 bytes are")] {
        let said = hint(&film[..film.len() - cut]);
        assert_eq!(said, format!("the file is cut off: {missing} missing; copy it again"));
    }
    // The tables stand at the end.
    let last = file(vec![atom("mdat", &[0; 3000]), w_movie().moov()]).bytes();
    let said = hint(&last[..2000]);
    assert_eq!(said, "the file is cut off: at least 1,008 bytes are missing, and the tables with them; copy it again");
    assert!(hint(&atom("mdat", &[0; 40]).bytes()).starts_with("there are no tables (moov) in this file"));
    // Text is no film that is cut off.
    assert_eq!(hint(b"Dear clerk, this is a letter and no film at all.\n"), "");
    // A file of whatever length.
    let folder = Folder::new("cut-off");
    let path = folder.file("long.mov", &w_movie().moov().bytes());
    let long = std::fs::File::options().append(true).open(&path).unwrap();
    std::io::Write::write_all(&mut &long, &[&[0, 0, 0, 1][..], b"mdat", &5_000_000_000u64.to_be_bytes()].concat())
        .unwrap();
    long.set_len(4_000_000_000).unwrap();
    let ran = run(&["tracks".as_ref(), path.as_os_str()]);
    let missing = 1_000_000_000 + w_movie().moov().bytes().len();
    let number = missing.to_string();
    let grouped = format!("{},{},{},{}", &number[..1], &number[1..4], &number[4..7], &number[7..]);
    assert!(
        ran.err.contains(&format!("hint: the file is cut off: {grouped} bytes are missing; copy it again\n")),
        "{}",
        ran.err
    );
}

/// A co64 beside an stco: the moov alone is refused 3, the whole file is read by its stco, and so is the program's.
#[test]
fn a_film_with_both_offset_tables() {
    let mut film = w();
    film.insert_after("moov trak mdia minf stbl stco", co64(&[1, 2]));
    let folder = Folder::new("both-tables");
    // The chunks move with the moov's length, since the mdat stands after it; the offsets are kept.
    let path = folder.file("both.mov", &film.bytes());
    let ask = |line: &str| run(&words(&line.replace("FILM", path.to_str().unwrap())));
    for line in
        ["tracks FILM --json", "stretch FILM 1 24 73", "slip FILM 1 24 73", "samples FILM 1 --csv", "check FILM"]
    {
        let plain = run(&words(&line.replace("FILM", "films/w.mov")));
        let name = |text: &str| text.replace(path.to_str().unwrap(), "films/w.mov").replace("4128", "4096");
        let both = ask(line);
        assert_eq!((name(&both.out), both.status), (plain.out, plain.status), "{line}: {}", both.err);
    }
    let filed = ask("film-return FILM --all").out;
    assert!(filed.starts_with("accepted 1\n") && filed.contains("\nrefused 3 0\n"), "{filed}");
    // With a part left out too.
    let edited = Movie { tracks: vec![w_with(|track| track.edits = edits(&[(121, 0)]))], ..w_movie() };
    let mut film = edited.file_of(4096);
    film.insert_after("moov trak mdia minf stbl stco", co64(&[1, 2]));
    assert!(hint(&film.bytes()).contains("the edit list of track 1 ends 1 units past"));
    assert_eq!(run_on(&film.bytes(), &words("tracks - --leave-out edits")).status, 0);
    // Neither table is refused 3 by both ways, and two of them too.
    film.remove("moov trak mdia minf stbl stco");
    film.insert_after("moov trak mdia minf stbl co64", stco(&[1, 2]));
    film.double("moov trak mdia minf stbl stco");
    assert_eq!(run_on(&film.bytes(), &["tracks", "-"]).status, 1);
}
