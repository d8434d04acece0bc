//! Malformed slips: where they go wrong, and how.
mod common;

use common::{run, run_on, Folder, Ran};
use reference::slip::read_any_slip;
use std::path::Path;

const SLIP: [u8; 13] = [0x01, 0x01, 0xd8, 0x04, 0x18, 0x49, 0x02, 0xcc, 0x08, 0x32, 0x84, 0x07, 0x46];

/// What is said of a slip below its hex.
#[track_caller]
fn says(slip: &[u8], line: &str) {
    let ran = run_on(slip, &["read-slip", "-"]);
    assert_eq!((ran.out.as_str(), ran.status, ran.err.lines().last()), ("", 1, Some(line)), "{slip:02x?}");
}

/// The same of the slip of film W with those bytes exchanged for others.
#[track_caller]
fn says_with(part: std::ops::Range<usize>, bytes: &[u8], line: &str) {
    says(&[&SLIP[..part.start], bytes, &SLIP[part.end..]].concat(), line);
}

#[test]
fn numbers_that_break_their_rule() {
    says_with(0..1, &[0x03], "place 0, form: it is 3, and must be 1 or 2");
    says_with(0..1, &[0x02], "place 0, form: it is 2, and no number of the slip is 2^32 or more: it must be 1");
    says_with(1..2, &[0x00], "place 1, track ID: it is 0, and must not be");
    says_with(2..4, &[0x00], "place 2, scale: it is 0, and must not be");
    says_with(5..6, &[0x18], "place 5, b: it is 24, and must be above a, which is 24");
    says_with(4..5, &[0xd8, 0x04], "place 6, b: it is 73, and must be above a, which is 600");
    says_with(6..7, &[0x00], "place 6, number of pairs: it is 0, and must be 1 to 1048576");
    says_with(6..7, &[0x81, 0x80, 0x40], "place 6, number of pairs: it is 1048577, and must be 1 to 1048576");
}

#[test]
fn numbers_that_are_not_written_so() {
    says_with(2..4, &[0xd8, 0x84, 0x00], "place 2, scale: it is not written in the fewest bytes");
    says_with(4..5, &[0x80, 0x80, 0x80, 0x80, 0x10], "place 4, a: it is 4294967296, and must be below 2^32");
    says_with(7..9, &[0x80; 5], "place 7, offset of pair 1: the top bit is set on its fifth byte");
    says_with(12..13, &[0xff; 5], "place 12, length of pair 2: the top bit is set on its fifth byte");
    // In form 2.
    let wide = |last: &[u8]| [&[0x02], &SLIP[1..12], last].concat();
    let tenth = [0xff; 10];
    says(&wide(&tenth), "place 12, length of pair 2: the top bit is set on its tenth byte");
    let great = [&[0x80; 9][..], &[0x02]].concat();
    says(&wide(&great), "place 12, length of pair 2: it is 18446744073709551616, and must be below 2^64");
    says(&wide(&[0xff, 0xff, 0xff, 0xff, 0x00]), "place 12, length of pair 2: it is not written in the fewest bytes");
}

#[test]
fn slips_that_end_early_or_late() {
    says(&[], "place 0, form: the slip ends before it");
    says(&SLIP[..3], "place 3, scale: the slip ends inside it; it begins at place 2");
    says(&SLIP[..12], "place 12, length of pair 2: the slip ends before it");
    says(
        &[&SLIP[..12], &[0x80; 4]].concat(),
        "place 16, length of pair 2: the slip ends inside it; it begins at place 12",
    );
    says(&[&SLIP[..], &[0x0a]].concat(), "place 13: 1 byte follows the last number");
    says(&[SLIP, SLIP].concat(), "place 13: 13 bytes follow the last number");
}

#[test]
fn the_place_is_marked() {
    let expected = Ran {
        out: String::new(),
        err: "chaldoref: standard input: refused 17: a slip is malformed\n  \
                0  01 01 D8 04 18 18 02 CC 08 32 84 07 46\n                    \
                                  ^^\n\
              place 5, b: it is 24, and must be above a, which is 24\n"
            .into(),
        status: 1,
    };
    // The same whether it is hex text or raw bytes.
    assert_eq!(run_on(b"01 01 D8 04 18 18\n02 CC 08 32 84 07 46\n", &["read-slip", "-"]), expected);
    assert_eq!(run_on(&[&SLIP[..5], &[0x18], &SLIP[6..]].concat(), &["read-slip", "-"]), expected);
}

#[test]
fn a_malformed_slip_is_a_document_too() {
    let document = |slip: &[u8]| run_on(slip, &["read-slip", "-", "--json"]).out;
    assert_eq!(
        document(&SLIP[..12]),
        "{\"format\":1,\"file\":\"-\",\"refused\":17,\"reason\":\"a slip is malformed\",\"place\":12,\
         \"number\":\"length of pair 2\",\"rule\":\"the slip ends before it\",\"hint\":null}\n"
    );
    assert_eq!(
        document(&[&SLIP[..], &[0x00, 0x00]].concat()),
        "{\"format\":1,\"file\":\"-\",\"refused\":17,\"reason\":\"a slip is malformed\",\"place\":13,\
         \"number\":null,\"rule\":\"2 bytes follow the last number\",\"hint\":null}\n"
    );
}

#[test]
fn good_and_malformed_slips_beside_each_other() {
    let folder = Folder::new("beside");
    let (good, bad) = (folder.file("good.slip", &SLIP), folder.file("bad.slip", &SLIP[..12]));
    let (good, bad) = (good.to_str().unwrap(), bad.to_str().unwrap());
    let both = run(&["read-slip", bad, good, bad]);
    assert_eq!(
        (both.out, both.status),
        (run(&["read-slip", good, good]).out.split_inclusive("\n\n").take(2).collect(), 1)
    );
    let alone = run(&["read-slip", bad]).err;
    assert_eq!(both.err, format!("{alone}{alone}"));
    // A file that cannot be read is worse, and stops nothing.
    let unreadable = run(&["read-slip", "films/none.slip", bad, good, "--json"]);
    assert_eq!((unreadable.out.lines().count(), unreadable.status), (3, 2));
}

/// Every slip of crates/slip_vectors that is malformed in either form: the place in the document is the reference's.
#[test]
fn the_places_of_the_vectors() {
    let folder = Folder::new("vectors");
    let mut names = vec!["read-slip".to_string(), "--json".to_string()];
    let mut places = Vec::new();
    for entry in std::fs::read_dir(Path::new("../../crates/slip_vectors/data")).unwrap() {
        let path = entry.unwrap().path();
        let name = path.file_name().unwrap().to_str().unwrap();
        // The slip stands after the case's own numbers.
        let slip = &std::fs::read(&path).unwrap()[24..];
        let mut room = vec![0; slip.len()];
        let (number, _, place) = read_any_slip(slip, &mut room);
        if number == 17 {
            names.push(folder.file(name, slip).to_str().unwrap().to_string());
            places.push(format!("\"place\":{place},"));
        }
    }
    assert!(places.len() > 200);
    let ran = run(&names);
    assert_eq!((ran.status, ran.out.lines().count()), (1, places.len()));
    for ((line, place), name) in ran.out.lines().zip(places).zip(&names[2..]) {
        assert!(line.contains(&place), "{name}: {line}");
    }
}
