//! Whole outputs of each command, for people and for machines.
mod common;

use common::{answers, run, run_on, words, Folder, Ran};
use reference::film::{self, w_movie, w_track};
use reference::made::{sound_track, w_with};
use std::ffi::{OsStr, OsString};

const SLIP: &str = "01 01 D8 04 18 49 02 CC 08 32 84 07 46\n";
const SLIP_BYTES: [u8; 13] = [0x01, 0x01, 0xd8, 0x04, 0x18, 0x49, 0x02, 0xcc, 0x08, 0x32, 0x84, 0x07, 0x46];

/// A film of those tracks.
fn film_of(tracks: Vec<film::Track>) -> Vec<u8> {
    film::Movie { tracks, ..w_movie() }.file_of(4096).bytes()
}

#[track_caller]
fn answers_on(film: &[u8], args: &[&str], out: &str) {
    assert_eq!(run_on(film, args), Ran { out: out.into(), err: String::new(), status: 0 }, "{args:?}");
}

#[test]
fn tracks() {
    answers(
        "tracks films/w.mov",
        "id  subtype  scale  total  hh:mm:ss.mmm  samples  chunks  edits  stored\n \
          1  vide       600    120  00:00:00.200        4       2      0     120\n\
         movie scale 600, stored duration 120 (00:00:00.200)\n\
         not proved: the file has 4096 bytes\n\
         not proved: track 1 is jpeg, 320 x 240 pixels\n",
    );
    answers(
        "tracks films/w.mov --json",
        "{\"format\":1,\"file\":\"films/w.mov\",\"movie\":{\"scale\":600,\"stored\":120,\"stored_seconds\":0.2},\
         \"tracks\":[{\"id\":1,\"subtype\":\"vide\",\"scale\":600,\"total\":120,\
         \"total_seconds\":0.2,\"samples\":4,\"chunks\":2,\
         \"edits\":0,\"stored\":120,\"stored_seconds\":0.2}],\"warnings\":[],\
         \"unproved\":{\"length\":4096,\"tracks\":[{\"id\":1,\"formats\":[\"jpeg\"],\"width\":320,\"height\":240,\
         \"handler_name\":null}]}}\n",
    );
}

#[test]
fn tracks_with_odd_subtypes() {
    let named = |id, subtype: &[u8; 4]| w_with(|track| (track.id, track.subtype) = (id, *subtype));
    let film = film_of(vec![named(1, b"a\"\\b"), named(4_000_000_000, b"\0\x01ab"), sound_track(7, [8, 16, 24])]);
    answers_on(
        &film,
        &["tracks", "-"],
        "        id  subtype     scale  total  hh:mm:ss.mmm  samples  chunks  edits  stored\n         \
                  1  a\"\\b          600    120  00:00:00.200        4       2      0     120\n\
         4000000000  0x00016162    600    120  00:00:00.200        4       2      0     120\n         \
                  7  soun        44100      9  00:00:00.000        9       3      1       9\n\
         movie scale 600, stored duration 120 (00:00:00.200)\n\
         not proved: the file has 4096 bytes\n\
         not proved: track 1 is jpeg\n\
         not proved: track 4000000000 is jpeg\n\
         not proved: track 7 is twos\n",
    );
    let json = run_on(&film, &["tracks", "-", "--json"]).out;
    assert!(json.contains("\"id\":1,\"subtype\":\"a\\\"\\\\b\","), "{json}");
    assert!(json.contains("\"id\":4000000000,\"subtype\":\"0x00016162\","), "{json}");
}

#[test]
fn no_tracks() {
    let heading = "id  subtype  scale  total  hh:mm:ss.mmm  samples  chunks  edits  stored\n\
                   movie scale 600, stored duration 120 (00:00:00.200)\n\
                   not proved: the file has 4096 bytes\n";
    answers_on(&film_of(vec![]), &["tracks", "-"], heading);
    answers_on(
        &film_of(vec![]),
        &["tracks", "-", "--json"],
        "{\"format\":1,\"file\":\"-\",\"movie\":{\"scale\":600,\"stored\":120,\"stored_seconds\":0.2},\
         \"tracks\":[],\"warnings\":[],\"unproved\":{\"length\":4096,\"tracks\":[]}}\n",
    );
}

#[test]
fn edits() {
    answers(
        "edits films/w.mov 1",
        "track 1 has no edit list: all of it is shown, from movie time 0 on\n\
         movie scale 600, stored duration 120 (00:00:00.200), track scale 600\n",
    );
    let edits = Some(vec![(60, -1, 65536), (60, 24, 65536)]);
    let film = film_of(vec![film::Track { edits, ..w_track() }]);
    answers_on(
        &film,
        &["edits", "-", "1"],
        "edit  movie time  hh:mm:ss.mmm  duration  hh:mm:ss.mmm  media time  hh:mm:ss.mmm  rate\n   \
            1           0  00:00:00.000        60  00:00:00.100     nothing             -     1\n   \
            2          60  00:00:00.100        60  00:00:00.100          24  00:00:00.040     1\n\
         movie scale 600, stored duration 120 (00:00:00.200), track scale 600\n",
    );
    answers_on(
        &film,
        &["edits", "-", "1", "--json"],
        "{\"format\":1,\"file\":\"-\",\"track\":1,\"movie_scale\":600,\"scale\":600,\"edits\":[{\"movie_time\":0,\
         \"movie_time_seconds\":0,\"duration\":60,\"duration_seconds\":0.1,\"media_time\":null,\"media_time_seconds\":null,\
         \"rate\":65536},{\"movie_time\":60,\"movie_time_seconds\":0.1,\"duration\":60,\"duration_seconds\":0.1,\
         \"media_time\":24,\"media_time_seconds\":0.04,\"rate\":65536}]}\n",
    );
}

#[test]
fn samples() {
    answers(
        "sample films/w.mov 1 3",
        "sample  decode  hh:mm:ss.mmm  duration  composition  sync  description  chunk  offset  size\n     \
              3      48  00:00:00.080        24           48  yes             1      1    1150     0\n",
    );
    answers(
        "sample --json films/w.mov 1 4",
        "{\"format\":1,\"file\":\"films/w.mov\",\"track\":1,\"sample\":4,\"decode\":72,\"decode_seconds\":0.12,\
         \"duration\":48,\"duration_seconds\":0.08,\"composition\":72,\"composition_seconds\":0.12,\"sync\":true,\
              \"description\":1,\
         \"chunk\":2,\"offset\":900,\"size\":70}\n",
    );
    let film = film_of(vec![film::Track { ctts: Some(vec![(4, -7)]), stss: Some(vec![]), ..w_track() }]);
    answers_on(
        &film,
        &["sample", "-", "1", "1"],
        "sample  decode  hh:mm:ss.mmm  duration  composition  sync  description  chunk  offset  size\n     \
              1       0  00:00:00.000        24           -7  no              1      1    1000   100\n",
    );
}

#[test]
fn bytes() {
    answers("sample films/two-hoses.mov 2 3 --bytes", "hose 2 picture 3");
    answers("sample films/w.mov 1 3 --bytes", "");
    let pictures = run(&["stretch", "--bytes", "films/two-hoses.mov", "2", "24", "96"]);
    assert_eq!((pictures.out.as_str(), pictures.status), ("hose 2 picture 2hose 2 picture 3hose 2 picture 4", 0));
}

#[test]
fn times() {
    answers(
        "at films/w.mov 1 24",
        "media time  hh:mm:ss.mmm  sample  decode  duration  stts entry\n        \
                 24  00:00:00.040       2      24        24           1\n",
    );
    answers(
        "at films/w.mov 0x1 0x77 --json",
        "{\"format\":1,\"file\":\"films/w.mov\",\"track\":1,\"media_time\":119,\
         \"media_time_seconds\":0.19833333333333333,\"sample\":4,\"decode\":72,\"decode_seconds\":0.12,\
         \"duration\":48,\"duration_seconds\":0.08,\"entry\":2,\"warnings\":[]}\n",
    );
    answers("map films/w.mov 1 60", "movie time  media time  hh:mm:ss.mmm\n        60          60  00:00:00.100\n");
    answers(
        "map films/w.mov 1 60 --json",
        "{\"format\":1,\"file\":\"films/w.mov\",\"track\":1,\"movie_time\":60,\
         \"media_time\":60,\"media_time_seconds\":0.1}\n",
    );
}

#[test]
fn times_in_edits() {
    let edits = Some(vec![(60, -1, 65536), (60, 24, 65536)]);
    let film = film_of(vec![film::Track { edits, ..w_track() }]);
    answers_on(
        &film,
        &["map", "-", "1", "59"],
        "movie time  media time  hh:mm:ss.mmm\n        59     nothing             -\n",
    );
    answers_on(
        &film,
        &["map", "-", "1", "59", "--json"],
        "{\"format\":1,\"file\":\"-\",\"track\":1,\"movie_time\":59,\"media_time\":null,\"media_time_seconds\":null}\n",
    );
    answers_on(
        &film,
        &["map", "-", "1", "119"],
        "movie time  media time  hh:mm:ss.mmm\n       119          83  00:00:00.138\n",
    );
}

#[test]
fn stretches() {
    answers(
        "stretch films/w.mov 1 24 73",
        "offset  length\n  1100      50\n   900      70\n2 ranges, 120 bytes\n\
         media time 24 to 73 (00:00:00.040 to 00:00:00.121), film time 49 (00:00:00.081)\n",
    );
    answers(
        "stretch films/w.mov 1 0 24",
        "offset  length\n  1000     100\n1 range, 100 bytes\nmedia time 0 to 24 (00:00:00.000 to 00:00:00.040), film time 24 (00:00:00.040)\n",
    );
    answers(
        "stretch films/w.mov 1 0 120 --json",
        "{\"format\":1,\"file\":\"films/w.mov\",\"track\":1,\"a\":0,\"a_seconds\":0,\"b\":120,\"b_seconds\":0.2,\
         \"pairs\":[{\"offset\":1000,\"length\":150},{\"offset\":900,\"length\":70}],\
         \"bytes\":220,\"warnings\":[]}\n",
    );
}

#[test]
fn slips() {
    let told = "chaldoref: track 1, media time 24 to 73 (00:00:00.040 to 00:00:00.121), film time 49 (00:00:00.081)\n";
    let says = |out: &str| Ran { out: out.into(), err: told.into(), status: 0 };
    assert_eq!(run(&["slip", "films/w.mov", "1", "24", "73"]), says(SLIP));
    answers(
        "slip films/w.mov 1 24 73 --json",
        "{\"format\":1,\"file\":\"films/w.mov\",\"track\":1,\"a\":24,\"a_seconds\":0.04,\"b\":73,\
         \"b_seconds\":0.12166666666666667,\"slip\":\"0101d804184902cc0832840746\",\"warnings\":[]}\n",
    );
    let folder = Folder::new("slips");
    let path = folder.path("w.slip");
    let name = path.to_str().unwrap();
    assert_eq!(run(&["slip", "films/w.mov", "1", "24", "73", "-o", name]), says(""));
    assert_eq!(std::fs::read(&path).unwrap(), SLIP_BYTES);
    let raw = common::program(&["slip", "films/w.mov", "1", "24", "73", "-o", "-"]).output().unwrap();
    assert_eq!(raw.stdout, SLIP_BYTES);
    assert_eq!(run(&["read-slip", name]), run_on(SLIP.as_bytes(), &["read-slip", "--hex", "-"]));
}

const SLIP_READ: &str =
    "track  scale   a   b  film time  hh:mm:ss.mmm\n    1    600  24  73         49  00:00:00.081\n\n\
                         offset  length\n  1100      50\n   900      70\n2 ranges, 120 bytes\n";

#[test]
fn slips_read() {
    let json =
        "{\"format\":1,\"file\":\"-\",\"form\":1,\"track\":1,\"scale\":600,\"a\":24,\"a_seconds\":0.04,\"b\":73,\
         \"b_seconds\":0.12166666666666667,\
        \"pairs\":[{\"offset\":1100,\"length\":50},\
                {\"offset\":900,\"length\":70}],\"bytes\":120}\n";
    // Raw bytes, and hex text with white space and line breaks: nobody has to say which.
    for slip in [&SLIP_BYTES[..], SLIP.as_bytes(), b"\r\n 0101D804\r\n184902 cC08\t32 840746\n\n"] {
        answers_on(slip, &["read-slip", "-"], SLIP_READ);
        answers_on(slip, &["read-slip", "--json", "-"], json);
    }
}

#[test]
fn several_slips_are_read() {
    let folder = Folder::new("several");
    let (raw, text) = (folder.file("raw.slip", &SLIP_BYTES), folder.file("text.slip", SLIP.as_bytes()));
    let (raw, text) = (raw.to_str().unwrap(), text.to_str().unwrap());
    let ran = run(&["read-slip", raw, text]);
    let expected = format!("{raw}:\n{SLIP_READ}\n{text}:\n{SLIP_READ}\n");
    assert_eq!(ran, Ran { out: expected, err: String::new(), status: 0 });
    let json = run(&["read-slip", raw, text, "--json"]).out;
    let files: Vec<bool> = json
        .lines()
        .zip([raw, text])
        .map(|(line, name)| line.starts_with(&format!("{{\"format\":1,\"file\":\"{name}\",\"form\":1,\"track\":1,")))
        .collect();
    assert_eq!(files, [true, true]);
}

#[test]
fn features() {
    answers(
        "features films/w.mov 1",
        "code  name                                         value  meaning\n\
         avvb  average video bit rate                        8800  8800 bits a second over the whole media\n\
         avab  average audio bit rate                  refused 18  only for sound tracks\n\
         tvsz  greatest picture                          20971760  320 x 240 pixels\n\
         vfps  highest frame rate                         1638400  25.000 frames a second\n\
         mvbr  highest video bit rate over one second        8800  8800 bits a second\n\
         mabr  highest audio bit rate over one second  refused 18  only for sound tracks\n\
         peak of mvbr: samples 1 to 4, media time 0 to 120 (00:00:00.000 to 00:00:00.200), the whole track\n",
    );
    let refused = "\"value\":null,\"refused\":18,\"reason\":\"only for sound tracks\",\"edits\":null,\"peak\":null}";
    let found = "\"refused\":null,\"reason\":null,\"edits\":null,\"peak\":null}";
    let average = "\"refused\":null,\"reason\":null,\"edits\":0,\"peak\":null}";
    let whole = "{\"first\":1,\"last\":4,\"a\":0,\"a_seconds\":0,\"b\":120,\"b_seconds\":0.2}}";
    answers(
        "features films/w.mov 1 --json",
        &format!(
            "{{\"format\":1,\"file\":\"films/w.mov\",\"track\":1,\"features\":[{{\"code\":\"avvb\",\
             \"name\":\"average video bit rate\",\"value\":8800,{average},\
             {{\"code\":\"avab\",\"name\":\"average audio bit rate\",{refused},\
             {{\"code\":\"tvsz\",\"name\":\"greatest picture\",\"value\":20971760,{found},\
             {{\"code\":\"vfps\",\"name\":\"highest frame rate\",\"value\":1638400,{found},\
             {{\"code\":\"mvbr\",\"name\":\"highest video bit rate over one second\",\"value\":8800,\
             \"refused\":null,\"reason\":null,\"edits\":null,\"peak\":{whole},\
             {{\"code\":\"mabr\",\"name\":\"highest audio bit rate over one second\",{refused}]}}\n"
        ),
    );
    answers(
        "features films/w.mov 1 avvb",
        "code  name                    value  meaning\n\
         avvb  average video bit rate   8800  8800 bits a second over the whole media\n",
    );
    answers(
        "features films/w.mov 1 0x76667073 --json",
        &format!(
            "{{\"format\":1,\"file\":\"films/w.mov\",\"track\":1,\"features\":[{{\"code\":\"vfps\",\
             \"name\":\"highest frame rate\",\"value\":1638400,{found}]}}\n"
        ),
    );
}

#[test]
fn averages_over_edits() {
    let edited = |edits: &[(u32, i32)]| {
        let edits = edits.iter().map(|(duration, media)| (*duration, *media, 65536)).collect();
        film_of(vec![film::Track { edits: Some(edits), ..w_track() }])
    };
    let line = ["features", "-", "1", "avvb"];
    let heading = "code  name                    value  meaning\n";
    let said = |value: u32, over: &str| {
        format!("{heading}avvb  average video bit rate   {value}  {value} bits a second over {over}\n")
    };
    answers_on(&edited(&[(60, -1), (60, 24)]), &line, &said(6000, "2 edits"));
    answers_on(&edited(&[(60, 24)]), &line, &said(6000, "1 edit"));
    let json = run_on(&edited(&[(60, -1), (60, 24)]), &["features", "-", "1", "avvb", "--json"]).out;
    assert!(json.contains("\"value\":6000,\"refused\":null,\"reason\":null,\"edits\":2,"), "{json}");
    let nothing = run_on(&edited(&[(60, -1)]), &line);
    let refused = "chaldoref: standard input: refused 18: the feature cannot be computed\n";
    assert_eq!(nothing, Ran { out: String::new(), err: refused.into(), status: 1 });
}

#[test]
fn peaks() {
    // Samples 3 to 5 have 210 bytes in a second.
    let burst = film::Track {
        duration: 40,
        scale: 10,
        stts: vec![(3, 5), (1, 4), (1, 1), (1, 20)],
        stsc: vec![(1, 6, 1)],
        stsz: film::Sizes::Each(vec![1, 1, 60, 70, 80, 9]),
        stco: vec![1000],
        ..w_track()
    };
    answers_on(
        &film_of(vec![burst.clone()]),
        &["features", "-", "1", "mvbr"],
        "code  name                                    value  meaning\n\
         mvbr  highest video bit rate over one second   1680  1680 bits a second\n\
         peak of mvbr: samples 3 to 5, media time 10 to 20 (00:00:01.000 to 00:00:02.000)\n",
    );
    let sound = film_of(vec![film::Track { subtype: *b"soun", ..burst }]);
    answers_on(
        &sound,
        &["features", "-", "1"],
        "code  name                                         value  meaning\n\
         avvb  average video bit rate                  refused 18  only for video tracks\n\
         avab  average audio bit rate                         442  442 bits a second over the whole media\n\
         tvsz  greatest picture                        refused 18  only for video tracks\n\
         vfps  highest frame rate                      refused 18  only for video tracks\n\
         mvbr  highest video bit rate over one second  refused 18  only for video tracks\n\
         mabr  highest audio bit rate over one second        1680  1680 bits a second\n\
         peak of mabr: samples 3 to 5, media time 10 to 20 (00:00:01.000 to 00:00:02.000)\n",
    );
    answers_on(
        &sound,
        &["features", "-", "1", "mabr", "--json"],
        "{\"format\":1,\"file\":\"-\",\"track\":1,\"features\":[{\"code\":\"mabr\",\
         \"name\":\"highest audio bit rate over one second\",\
         \"value\":1680,\"refused\":null,\"reason\":null,\"edits\":null,\"peak\":{\"first\":3,\"last\":5,\"a\":10,\"a_seconds\":1,\
         \"b\":20,\"b_seconds\":2}}]}\n",
    );
}

#[test]
fn features_of_no_samples_and_of_text() {
    let none = run_on(&film_of(vec![reference::made::empty_track(1)]), &["features", "-", "1"]).out;
    for code in ["avvb", "tvsz", "vfps", "mvbr"] {
        let line = none.lines().find(|line| line.starts_with(code)).unwrap();
        assert!(line.ends_with("refused 18  the feature cannot be computed"), "{none}");
    }
    assert!(!none.contains("peak"), "{none}");
    let text = run_on(&film_of(vec![film::Track { subtype: *b"text", ..w_track() }]), &["features", "-", "1"]).out;
    assert_eq!(text.matches("refused 18  only for video tracks\n").count(), 4, "{text}");
    assert_eq!(text.matches("refused 18  only for sound tracks\n").count(), 2, "{text}");
}

#[test]
fn profiles() {
    let records = |value| Some(vec![[0, 1, u32::from_be_bytes(*b"vfps"), value], [0, 2, 5, 6]]);
    let tracks = vec![film::Track { profile: records(0x0019_0000), ..w_track() }];
    let film = film::Movie { tracks, profile: records(7), ..w_movie() }.file_of(4096).bytes();
    answers_on(
        &film,
        &["profile", "-", "1"],
        "part        code          value  hex\n\
         0x00000001  vfps        1638400  0x00190000\n\
         0x00000002  0x00000005        6  0x00000006\n",
    );
    let movies =
        "\"records\":[{\"part\":1,\"code\":\"vfps\",\"value\":7},{\"part\":2,\"code\":\"0x00000005\",\"value\":6}]}\n";
    let tracks = "[{\"track\":1,\"records\":[{\"part\":1,\"code\":\"vfps\",\"value\":1638400},\
                  {\"part\":2,\"code\":\"0x00000005\",\"value\":6}]}]}\n";
    let all = format!(
        "{{\"format\":1,\"file\":\"-\",\"track\":null,{}",
        movies.replace("}\n", &format!(",\"tracks\":{tracks}"))
    );
    answers_on(&film, &["profile", "-", "--json"], &all);
    answers_on(&film, &["profile", "-", "0", "--json"], &format!("{{\"format\":1,\"file\":\"-\",\"track\":0,{movies}"));
    answers("profile films/w.mov", "the film has no profile\n");
    answers("profile films/w.mov 1", "track 1 has no profile\n");
    answers("profile films/w.mov 0", "the movie has no profile\n");
    answers_on(
        &film,
        &["profile", "-"],
        "the movie:\n\
         part        code        value  hex\n\
         0x00000001  vfps            7  0x00000007\n\
         0x00000002  0x00000005      6  0x00000006\n\
         track 1:\n\
         part        code          value  hex\n\
         0x00000001  vfps        1638400  0x00190000\n\
         0x00000002  0x00000005        6  0x00000006\n",
    );
    answers("profile films/w.mov 1 --json", "{\"format\":1,\"file\":\"films/w.mov\",\"track\":1,\"records\":[]}\n");
}

/// A track of W's kind whose profile has these records, each with the universal part-ID.
fn claiming(records: &[(&[u8; 4], u32)]) -> Vec<u8> {
    let profile = records.iter().map(|(code, value)| [0, 0x2020_2020, u32::from_be_bytes(**code), *value]).collect();
    film_of(vec![film::Track { profile: Some(profile), ..w_track() }])
}

#[test]
fn true_profiles() {
    let film = claiming(&[(b"avvb", 8800), (b"vfmt", u32::from_be_bytes(*b"jpeg")), (b"abcd", 7)]);
    answers_on(
        &film,
        &["check-profile", "-", "1"],
        "record  part       code       value  verdict\n     \
              1  universal  avvb        8800  claims at most 8800, computed 8800: true\n     \
              2  universal  vfmt  1785750887  names jpeg, which a description has: true\n     \
              3  universal  abcd           7  not judged\n\
         the profile of track 1 is true\n",
    );
    assert_eq!(run_on(&film, &["check-profile", "-"]), run_on(&film, &["check-profile", "-", "1"]));
    answers("check-profile films/w.mov 1", "track 1 has no profile, and none is untrue\n");
    answers("check-profile films/two-hoses.mov", "no track of the film has a profile, so that none is untrue\n");
    answers(
        "check-profile films/w.mov --json",
        "{\"format\":1,\"file\":\"films/w.mov\",\"true\":true,\"tracks\":[{\"track\":1,\"true\":true,\"fault\":null,\
         \"records\":[]}]}\n",
    );
    answers(
        "check-profile films/w.mov 1 --json",
        "{\"format\":1,\"file\":\"films/w.mov\",\"track\":1,\"true\":true,\"fault\":null,\"records\":[]}\n",
    );
}

#[test]
fn records_at_fault() {
    let told = |film: &[u8], record: usize, words: &str| {
        let ran = run_on(film, &["check-profile", "-", "1"]);
        let last = format!("the profile of track 1 is not true: record {record} is the first at fault");
        assert_eq!((ran.out.lines().last(), ran.err.as_str(), ran.status), (Some(last.as_str()), "", 1));
        assert!(ran.out.lines().nth(record).unwrap().ends_with(&format!("  {words}: not true")), "{}", ran.out);
    };
    let format = |code: &[u8; 4]| u32::from_be_bytes(*code);
    told(&claiming(&[(b"vfps", u32::MAX), (b"avvb", 8799)]), 2, "claims at most 8799, computed 8800");
    told(&claiming(&[(b"avab", 9)]), 1, "claims at most 9, and none can be computed of this track");
    told(&claiming(&[(b"tvsz", 0xffff_0000)]), 1, "claims at most 65535 x 0 pixels, computed 320 x 240 pixels");
    let two = claiming(&[(b"vfmt", format(b"jpeg")), (b"vfmt", format(b"avc1"))]);
    told(&two, 2, "names avc1, which no description has");
    // A format that no record names is charged to the first of them.
    let profile = Some(vec![[0, 0x2020_2020, format(b"vfmt"), format(b"jpeg")]]);
    let descriptions = [b"jpeg", b"avc1"].map(|name| film::description(name, 86)).to_vec();
    let unnamed = film_of(vec![film::Track { profile, descriptions, ..w_track() }]);
    told(&unnamed, 1, "avc1, which a description has, is named by no record");
    let json = run_on(&claiming(&[(b"avvb", 8799)]), &["check-profile", "-", "1", "--json"]);
    let records = "[{\"part\":538976288,\"code\":\"avvb\",\"value\":8799,\"computed\":8800,\"verdict\":false}]";
    let out = format!("{{\"format\":1,\"file\":\"-\",\"track\":1,\"true\":false,\"fault\":1,\"records\":{records}}}\n");
    assert_eq!((json.out, json.status), (out, 1));
}

#[test]
fn the_quay_film_profile() {
    answers("check-quay films/two-hoses.mov", "the film keeps the quay film profile\n");
    answers(
        "check-quay films/two-hoses.mov --json",
        "{\"format\":1,\"file\":\"films/two-hoses.mov\",\"keeps\":true,\"rule\":null,\"words\":null,\"track\":null,\
         \"place\":null}\n",
    );
    let told = |film: &[u8], args: &[&str], out: &str| {
        let ran = run_on(film, args);
        assert_eq!((ran.out.as_str(), ran.err.as_str(), ran.status), (out, "", 1));
    };
    let sixth = "rule 6 (no sample of size 0): broken by track 1 at sample 3 (00:00:00.080)\n";
    let not_proved = "not proved: where a rule is broken, which was found by stepping through the tracks";
    told(&film_of(vec![w_track()]), &["check-quay", "-"], &format!("{sixth}{not_proved}\n"));
    told(
        &film_of(vec![w_track()]),
        &["check-quay", "-", "--all"],
        &format!(
            "{sixth}rule 8 (chunks rise in the file and do not overlap): broken by track 1 at sample 4 (00:00:00.120): \
             chunk 2 begins at byte 900, and chunk 1 lies from 1000 to 1150\n\
             {not_proved}; the first line's rule and track are proved\n"
        ),
    );
    told(
        &film_of(vec![]),
        &["check-quay", "-"],
        &format!(
            "rule 1 (one or two video tracks and no others): broken by the movie: it has no tracks\n{not_proved}\n"
        ),
    );
    told(
        &film_of(vec![w_track()]),
        &["check-quay", "-", "--json"],
        "{\"format\":1,\"file\":\"-\",\"keeps\":false,\"rule\":6,\"words\":\"no zero sizes\",\"track\":1,\
         \"place\":{\"sample\":3,\"time\":48,\"time_seconds\":0.08,\"words\":\"\",\"proved\":false}}\n",
    );
}

/// Each rule is broken by a film, and where is told.
#[test]
fn where_each_rule_is_broken() {
    for (rule, place) in [
        (2, ": it has 2 edits"),
        (3, ": it has 2 descriptions"),
        (4, ": it has a ctts"),
        (5, " at sample 1 (00:00:00.000): it is no sync sample"),
        (6, " at sample "),
        (7, " at sample "),
        (8, " at sample "),
        (9, " at sample "),
    ] {
        let film = film_of(vec![reference::made::breaking(reference::made::quay_track(1), rule)]);
        let ran = run_on(&film, &["check-quay", "-"]);
        assert!(ran.out.starts_with(&format!("rule {rule} (")), "{}", ran.out);
        assert!(ran.out.contains(&format!("): broken by track 1{place}")), "{}", ran.out);
        assert_eq!(ran.status, 1);
    }
}

#[test]
fn several_films_are_one_table() {
    let ran = run(&["check-quay", "films/w.mov", "films/two-hoses.mov", "none.mov"]);
    let out = "film                 verdict    rule                     track  where\n\
               films/w.mov          breaks it  6 (no sample of size 0)  1      at sample 3 (00:00:00.080)\n\
               films/two-hoses.mov  keeps it   -                        -      -\n\
               none.mov             not read   -                        -      -\n\
               not proved: where a rule is broken, which was found by stepping through the tracks\n";
    let err = "chaldoref: none.mov: No such file or directory\n";
    assert_eq!(ran, Ran { out: out.into(), err: err.into(), status: 2 });
    let kept = run(&["check-quay", "films/two-hoses.mov", "films/two-hoses.mov"]);
    assert_eq!((kept.out.lines().count(), kept.status), (3, 0));
}

/// The lines of the refusals, of which one film has that number.
fn refused_once(number: u32) -> String {
    let lines = (1..=13).chain([19]).map(|n| format!("refused {n} {}\n", u32::from(n == number)));
    lines.collect()
}

#[test]
fn film_returns() {
    let out = "accepted 2\ntracks 3\nsamples 16\nbytes 412\nscale 600 408 00:00:00.680\n";
    answers("film-return films/w.mov films/two-hoses.mov", out);
    let all = run(&words("film-return --all films/w.mov films/two-hoses.mov README.md"));
    let rest = "tracks 3\nsamples 16\nbytes 412\nscale 600 408 00:00:00.680\n";
    assert_eq!((all.out, all.status), (format!("accepted 2\n{}{rest}", refused_once(2)), 1));
    assert!(all.err.starts_with("chaldoref: README.md: refused 2: "), "{}", all.err);
    let ran = run_on(&film_of(vec![w_track()]), &["film-return", "none.mov", "-"]);
    let totals = "accepted 1\ntracks 1\nsamples 4\nbytes 220\nscale 600 120 00:00:00.200\n";
    assert_eq!(ran.out, format!("skipped none.mov\n{totals}"));
    assert_eq!((ran.err.as_str(), ran.status), ("chaldoref: none.mov: No such file or directory\n", 2));
    let json = run_on(&film_of(vec![w_track()]), &["film-return", "none.mov", "-", "--json"]);
    assert!(json.out.starts_with(
        "{\"format\":1,\"skipped\":[\"none.mov\"],\"fragmented\":[],\"not_accepted\":[{\"file\":\"none.mov\",\
         \"counted\":false,\"error\":\"No such file or directory\"}],\"accepted\":1,\"refused\":[{\"refusal\":1,"
    ));
    assert!(json.out.ends_with(
        "\"tracks\":1,\"samples\":4,\"bytes\":220,\"scales\":[{\"scale\":600,\"total\":120,\"total_seconds\":0.2}]}\n"
    ));
}

/// Sixteen tracks a film, each with a scale of its own.
#[test]
fn a_thirty_third_scale() {
    let film =
        |first: u32| film_of((0..16).map(|n| film::Track { id: n + 1, scale: first + n, ..w_track() }).collect());
    let folder = common::Folder::new("scales");
    for (name, first) in [("a.mov", 100), ("b.mov", 116), ("c.mov", 132)] {
        folder.file(name, &film(first));
    }
    let names = ["a.mov", "b.mov", "c.mov", "a.mov"].map(|name| folder.path(name).to_str().unwrap().to_string());
    let ran = run(&[&["film-return".to_string()][..], &names].concat());
    let third = format!("skipped {}\naccepted 3\n", names[2]);
    assert!(ran.out.starts_with(&third), "{}", ran.out);
    assert_eq!(ran.out.matches("scale ").count(), 32);
    assert!(ran.out.contains("\nscale 100 240 00:00:02.400\n") && ran.out.contains("\nscale 131 120 "), "{}", ran.out);
    assert_eq!(
        (ran.err, ran.status),
        (format!("chaldoref: {}: refused 20: a thirty-third time scale would be met\n", names[2]), 1)
    );
}

/// A film that is refused is named, in each form.
#[test]
fn a_return_names_the_films_that_are_refused() {
    let folder = common::Folder::new("refused");
    folder.file("good.mov", &film_of(vec![w_track()]));
    folder.file("bad, worse.mov", &film_of(vec![w_with(|track| track.scale = 0)]));
    let ask = |options: &[&str]| {
        let names = ["good.mov", "bad, worse.mov"].map(|name| OsStr::new(name).to_owned());
        let options = options.iter().map(|option| OsStr::new(option).to_owned());
        let line: Vec<OsString> = [OsString::from("film-return")].into_iter().chain(names).chain(options).collect();
        Ran::new(common::program(&line).current_dir(folder.path("")).output().unwrap())
    };
    let ran = ask(&[]);
    assert_eq!(ran.out, "accepted 1\nrefused 8 1\ntracks 1\nsamples 4\nbytes 220\nscale 600 120 00:00:00.200\n");
    assert!(ran.err.starts_with("chaldoref: bad, worse.mov: refused 8: ") && ran.status == 1, "{ran:?}");
    let lines = "file,verdict,tracks,samples,bytes,vide time\n\
                 good.mov,accepted,1,4,220,00:00:00.200\n\"bad, worse.mov\",refused 8,0,0,0,\n";
    let csv = ask(&["--csv"]);
    assert_eq!((csv.out.as_str(), &csv.err, csv.status), (lines, &ran.err, 1));
    let json = ask(&["--json"]);
    let named = "\"skipped\":[],\"fragmented\":[],\"not_accepted\":[{\"file\":\"bad, worse.mov\",\"counted\":true,\"refused\":8,";
    assert!(json.out.contains(named) && json.err == ran.err && json.status == 1, "{json:?}");
}

/// Film time is added for each subtype, whatever the scales are.
#[test]
fn film_time_by_subtype() {
    let sound = |id, scale| w_with(|track| (track.id, track.scale, track.subtype) = (id, scale, *b"soun"));
    let film = film_of(vec![w_track(), sound(2, 1200), sound(3, 60)]);
    let ran = run_on(&film, &["film-return", "-", "--csv"]);
    let lines =
        "file,verdict,tracks,samples,bytes,vide time,soun time\n-,accepted,3,12,660,00:00:00.200,00:00:02.100\n";
    assert_eq!((ran.out.as_str(), ran.status), (lines, 0));
}

/// Films in folders and in lists. What is not named as a film is told, and a link to a folder is not followed.
#[test]
fn films_in_folders_and_lists() {
    let folder = common::Folder::new("folders");
    let film = film_of(vec![w_track()]);
    std::fs::create_dir_all(folder.path("films/more")).unwrap();
    for name in ["films/b.mov", "films/a.MP4", "films/more/c.qt", "films/notes.txt", "d.mov", "e\nf.mov"] {
        folder.file(name, &film);
    }
    std::os::unix::fs::symlink("..", folder.path("films/more/up.mov")).unwrap();
    folder.file("list", b"d.mov\n\nfilms/b.mov\nnone.mov\n");
    folder.file("list0", b"e\nf.mov\0d.mov\0");
    let ran = common::run_in(&folder, "film-return films --csv");
    let names: Vec<&str> = ran.out.lines().skip(1).map(|line| line.split(',').next().unwrap()).collect();
    assert_eq!((names, ran.status), (vec!["films/a.MP4", "films/b.mov", "films/more/c.qt"], 0));
    let told = "chaldoref: warning: films: 2 files are not named as films (.mov, .mp4, .m4v, .qt), and not counted\n";
    assert_eq!(ran.err, told);
    let ran = common::run_in(&folder, "film-return films/a.MP4 --files-from list");
    assert!(ran.out.starts_with("skipped none.mov\naccepted 3\n") && ran.status == 2, "{ran:?}");
    let ran = common::run_in(&folder, "film-return --files-from list0 -0");
    assert!(ran.out.starts_with("accepted 2\n") && ran.status == 0, "{ran:?}");
    let ran = common::run_in(&folder, "film-return --files-from none");
    assert_eq!(ran, Ran { out: String::new(), err: "chaldoref: none: No such file or directory\n".into(), status: 2 });
    let ran = common::run_in(&folder, "film-return --files-from none --json");
    assert_eq!(ran.out, "{\"format\":1,\"file\":\"none\",\"error\":\"No such file or directory\"}\n");
    let listed = run_on(b"films/w.mov\nfilms/two-hoses.mov\n", &["film-return", "--files-from", "-"]);
    assert!(listed.out.starts_with("accepted 2\ntracks 3\n") && listed.status == 0, "{listed:?}");
    for line in [
        "film-return",
        "film-return - --files-from -",
        "film-return films/w.mov -0",
        "film-return films/w.mov --csv --json",
    ] {
        let ran = run(&words(line));
        assert!(ran.status == 2 && ran.err.contains("usage: chaldoref film-return FILE... "), "{line}: {ran:?}");
    }
}
