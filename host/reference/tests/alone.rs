//! Document 02, "Films above two gigabytes": the moov lent alone, its refusals, 64-bit offsets, and the same answers as by the first way.
use reference::film::*;
use reference::made::{edits, empty_track, movie, spoiled, w_with};
use reference::maker::alone::moov_of;
use reference::movie::refusals::refused_1_alone;
use reference::movie::*;
use reference::slip::{read_any_slip, read_slip, Head, MALFORMED};

const STBL: &str = "trak mdia minf stbl";
const STCO: &str = "trak mdia minf stbl stco";
const CO64: &str = "trak mdia minf stbl co64";

/// The greatest length of a file, and where 32 bits end.
const LONGEST: u64 = (1 << 63) - 1;
const WIDE: u64 = 1 << 32;

fn alone(moov: &Node, length: u64) -> MoovAlone<Vec<u8>> {
    MoovAlone { moov: moov.bytes(), length }
}

/// W's moov after a change to its atoms.
fn changed(change: impl Fn(&mut Node)) -> Node {
    let mut moov = w_movie().moov();
    change(&mut moov);
    moov
}

/// W's moov with a co64 in place of its stco.
fn wide_w(offsets: &[u64]) -> Node {
    changed(|moov| moov.replace(STCO, co64(offsets)))
}

/// The number with which a moov is refused where strict reading is asked for. Only 11 is another by default.
fn refused(moov: &Node, length: u64) -> u32 {
    let film = alone(moov, length);
    let number = strict_refusal(&film);
    assert!(number == 11 || refusal(&film) == number);
    number
}

/// The number with which W's moov is refused after a change, with W's length.
fn refused_after(change: impl Fn(&mut Node)) -> u32 {
    refused(&changed(change), 4096)
}

/// The same after the stco is exchanged for a co64.
fn refused_wide(change: impl Fn(&mut Node)) -> u32 {
    let mut moov = wide_w(&[1000, 900]);
    change(&mut moov);
    refused(&moov, 4096)
}

#[test]
fn film_w_has_the_papers_answers() {
    let film = alone(&w_movie().moov(), 4096);
    for (t, n, entry) in [(0, 1, 1), (23, 1, 1), (24, 2, 1), (72, 4, 2), (119, 4, 2)] {
        assert_eq!(sample_at(&film, 1, t), (0, (n, entry)));
    }
    assert_eq!(sample_at(&film, 1, 120), (15, (0, 0)));
    let (_, third) = sample(&film, 1, 3);
    assert_eq!((third.decode_time, third.chunk, third.offset, third.size), (48, 1, 1150, 0));
    let (_, fourth) = sample(&film, 1, 4);
    assert_eq!((fourth.chunk, fourth.offset), (2, 900));
    assert_eq!([0, 5].map(|n| sample(&film, 1, n)), [(15, Sample::default()); 2]);
    let mut room: [u64; 5] = [9; 5];
    assert_eq!(stretch(&film, 1, 24, 73, &mut room), (0, (2, 120)));
    assert_eq!(room, [1100, 50, 900, 70, 9]);
    assert_eq!(stretch(&film, 1, 0, 120, &mut room), (0, (2, 220)));
    assert_eq!(room, [1000, 150, 900, 70, 9]);
    assert_eq!(stretch(&film, 1, 24, 24, &mut room), (15, (0, 0)));
    let mut slip = [9; 14];
    assert_eq!(write_slip(&film, 1, 24, 73, &mut slip), (0, 13));
    assert_eq!(slip, [0x01, 0x01, 0xd8, 0x04, 0x18, 0x49, 0x02, 0xcc, 0x08, 0x32, 0x84, 0x07, 0x46, 9]);
    let [avvb, vfps] = [b"avvb", b"vfps"].map(|code| feature(&film, 1, u32::from_be_bytes(*code)));
    assert_eq!([avvb, vfps], [(0, 8800), (0, 0x0019_0000)]);
}

/// W's film with its chunks above 2^32, and the figures that follow from document 01's by adding.
#[test]
fn film_w_above_two_gigabytes() {
    let film = alone(&wide_w(&[WIDE + 1000, WIDE + 900]), WIDE + 4096);
    assert_eq!([3, 4].map(|n| sample(&film, 1, n).1.offset), [WIDE + 1150, WIDE + 900]);
    let mut room = [9; 5];
    assert_eq!(stretch(&film, 1, 24, 73, &mut room), (0, (2, 120)));
    assert_eq!(room, [WIDE + 1100, 50, WIDE + 900, 70, 9]);
    let form_2 = [
        0x02, 0x01, 0xd8, 0x04, 0x18, 0x49, 0x02, 0xcc, 0x88, 0x80, 0x80, 0x10, 0x32, 0x84, 0x87, 0x80, 0x80, 0x10,
        0x46,
    ];
    let mut slip = [9; 20];
    assert_eq!(write_slip(&film, 1, 24, 73, &mut slip), (0, 19));
    assert_eq!((&slip[..19], slip[19]), (&form_2[..], 9));
    let mut pairs = [9; 4];
    assert_eq!(read_any_slip(&form_2, &mut pairs), (0, Head { id: 1, scale: 600, a: 24, b: 73, pairs: 2 }, 0));
    assert_eq!(pairs, [WIDE + 1100, 50, WIDE + 900, 70]);
    assert_eq!(read_slip(&form_2, &mut [9; 4]), (MALFORMED, Head::default(), 0));
}

/// "1 there for lent bytes above their limit, or a length above 2^63-1 or below theirs"
#[test]
fn number_1() {
    assert_eq!(refused_1_alone(2_147_483_647, 2_147_483_647), None);
    assert_eq!(refused_1_alone(2_147_483_647, LONGEST), None);
    assert!(refused_1_alone(2_147_483_648, LONGEST).is_some());
    assert!(refused_1_alone(2_147_483_647, 2_147_483_646).is_some());
    let moov = w_movie().moov();
    assert_eq!([LONGEST, LONGEST + 1, u64::MAX].map(|length| refused(&moov, length)), [0, 1, 1]);
    // Chunks that lie in the moov itself, which is the whole file, and then longer than it.
    let inside = changed(|moov| moov.replace(STCO, stco(&[0, 8])));
    let lent = u64::try_from(inside.bytes().len()).unwrap();
    assert_eq!([lent, lent - 1, 0].map(|length| refused(&inside, length)), [0, 1, 1]);
    // Before 2: what is no moov atom.
    assert_eq!([0, LONGEST + 1].map(|length| refused(&file(vec![]), length)), [2, 1]);
    assert_eq!([4, 5].map(|length| refused(&raw(&[7; 5]), length)), [1, 2]);
}

/// "2 if the lent bytes aren't one moov atom"
#[test]
fn number_2() {
    let moov = w_movie().moov();
    let lent = |atoms: Vec<Node>| refused(&file(atoms), 4096);
    assert_eq!(lent(vec![moov.clone()]), 0);
    // No bytes, another type, anything before or after, two moovs.
    assert_eq!(lent(vec![]), 2);
    for kind in [*b"MOOV", *b"trak", *b"free"] {
        assert_eq!(lent(vec![Node { kind, ..moov.clone() }]), 2);
    }
    for other in [atom("free", &[]), atom("mdat", &[7; 9]), raw(&[0; 8]), raw(&[0; 3]), moov.clone()] {
        assert_eq!(lent(vec![other.clone(), moov.clone()]), 2);
        assert_eq!(lent(vec![moov.clone(), other]), 2);
    }
    // A whole file is not a moov.
    assert_eq!(refused(&w(), 4096), 2);
    // An empty moov is one.
    assert_eq!(lent(vec![container("moov", vec![])]), 3);
}

/// "At top level only, size 1 means that a 64-bit size follows the type"; "(size 0 runs to their end)"
#[test]
fn sizes_of_the_moov() {
    let sized = |size: Size| refused_after(|moov| moov.size = size);
    let long = u64::try_from(w_movie().moov().bytes().len()).unwrap();
    let short = u32::try_from(long).unwrap();
    assert_eq!([Size::True, Size::Wide, Size::Says(0), Size::WideSays(long + 8)].map(sized), [0; 4]);
    assert_eq!([7, 8, short - 1, short + 1, u32::MAX].map(Size::Says).map(sized), [2; 5]);
    assert_eq!([0, 15, 16, long + 7, long + 9, 1 << 63, u64::MAX].map(Size::WideSays).map(sized), [2; 7]);
    // Size 0 takes in what follows, which is then a child.
    for (bytes, number) in [(&[0, 0, 0, 8, b'f', b'r', b'e', b'e'][..], 0), (&[0; 8], 2), (&[0; 3], 2)] {
        let moov = Node { size: Size::Says(0), tail: bytes.to_vec(), ..w_movie().moov() };
        assert_eq!(refused(&moov, 4096), number);
    }
    // Below the top level 0 and 1 are no sizes.
    for size in [Size::Says(0), Size::Wide] {
        assert_eq!(refused_after(|moov| moov.at("trak").size = size), 2);
    }
    assert_eq!(refused_after(|moov| moov.at(STBL).tail = vec![0; 3]), 2);
}

/// "exactly one of the two"; "3 if both offset tables or neither is there"
#[test]
fn number_3() {
    assert_eq!(refused_wide(|_| ()), 0);
    assert_eq!(refused_after(|moov| moov.remove(STCO)), 3);
    assert_eq!(refused_after(|moov| moov.double(STCO)), 3);
    assert_eq!(refused_wide(|moov| moov.double(CO64)), 3);
    assert_eq!(refused_wide(|moov| moov.push(STBL, stco(&[1000, 900]))), 3);
    assert_eq!(refused_after(|moov| moov.push(STBL, co64(&[1000, 900]))), 3);
    // Even where the second has nothing to say, or is of another version.
    assert_eq!(refused_after(|moov| moov.push(STBL, atom("co64", &[]))), 3);
    assert_eq!(refused_after(|moov| moov.push(STBL, atom("co64", &[1]))), 3);
    // In another place co64 is a leaf that is skipped, as is one of another type.
    assert_eq!(refused_after(|moov| moov.push("trak", co64(&[1000, 900]))), 0);
    assert_eq!(refused_after(|moov| moov.push(STBL, atom("CO64", &[1]))), 0);
    // Each track has its own.
    let second = |stbl: fn(&mut Node)| {
        let mut moov = movie(&[w_track(), Track { id: 2, ..w_track() }]).moov();
        stbl(moov.at("trak:1 mdia minf stbl"));
        refused(&moov, 4096)
    };
    assert_eq!(second(|stbl| stbl.replace("stco", co64(&[1000, 900]))), 0);
    assert_eq!(second(|stbl| stbl.push("", co64(&[1000, 900]))), 3);
    assert_eq!(second(|stbl| stbl.remove("stco")), 3);
}

/// "Chunk offsets may then come from 'co64'": of a whole file it remains a leaf that is not read.
#[test]
fn co64_in_a_whole_file() {
    let whole = |change: &dyn Fn(&mut Node)| {
        let mut film = w();
        change(&mut film);
        refusal(&film.bytes())
    };
    let stco = &format!("moov {STCO}");
    assert_eq!(whole(&|film| film.replace(stco, co64(&[1000, 900]))), 3);
    for other in [co64(&[0, 0]), atom("co64", &[]), atom("co64", &[1])] {
        assert_eq!(whole(&|film| film.insert_before(stco, other.clone())), 0);
    }
}

/// "A read leaf": co64 is one here.
#[test]
fn numbers_4_and_5() {
    assert_eq!(refused_wide(|moov| moov.at(CO64).body[0] = 1), 4);
    assert_eq!(refused_wide(|moov| moov.at(CO64).body = vec![1]), 4);
    assert_eq!(refused_wide(|moov| moov.at(CO64).body[1] = 1), 0);
    // "'co64' (16+8n)"
    for length in [0, 1, 7, 8, 15, 16, 23, 25, 32] {
        assert_eq!(refused_wide(|moov| moov.resize(CO64, length)), 5, "{length}");
    }
    for count in [0, 1, 3, 4, 2 + (1 << 29), 2 + (1 << 30), u32::MAX] {
        assert_eq!(refused_wide(|moov| moov.set(CO64, 12, count)), 5, "{count}");
    }
    // The entries of one under the other's name.
    assert_eq!(refused_wide(|moov| moov.at(CO64).kind = *b"stco"), 5);
    assert_eq!(refused_after(|moov| moov.at(STCO).kind = *b"co64"), 5);
}

/// "in one track over 1,048,576 samples or chunks"
#[test]
fn number_6() {
    let chunks = |n: u32| {
        let many = w_with(|track| {
            (track.duration, track.stts) = (n, vec![(n, 1)]);
            (track.stsc, track.stsz) = (vec![(1, 1, 1)], Sizes::Common(1, n.min(1_048_576)));
        });
        let mut moov = movie(&[many]).moov();
        moov.replace(STCO, co64(&vec![LONGEST - 1; usize::try_from(n).unwrap()]));
        refused(&moov, LONGEST)
    };
    assert_eq!([1_048_576, 1_048_577].map(chunks), [0, 6]);
}

/// "with N samples from stsz and C chunks from stco", or from co64
#[test]
fn number_9() {
    for offsets in [&[][..], &[1000], &[1000, 900, 800]] {
        assert_eq!(refused(&wide_w(offsets), 4096), 9);
    }
    let mut empty = movie(&[empty_track(1)]).moov();
    empty.replace(STCO, co64(&[]));
    assert_eq!(refused(&empty, 4096), 0);
}

/// Document 01's other refusals do not ask for the way in. The one that is no moov was refused 3 as a file.
#[test]
fn the_other_refusals() {
    for (number, name, film) in spoiled(&w_track(), |track| movie(&[track]).file_of(4096)) {
        let whole = film.bytes();
        match moov_of(&whole) {
            Some(moov) => assert_eq!(refusal(&moov), number, "{name}"),
            None => assert_eq!((name, refusal(&whole)), ("empty-file", 3)),
        }
    }
}

/// "The slip writer needs refusal 11 as proof that a file was closed properly and asks the strict way"
#[test]
fn number_11_stops_only_the_slip_writer() {
    for offsets in [[1000, 900], [WIDE + 1000, WIDE + 900]] {
        let mut moov = wide_w(&offsets);
        moov.set("trak mdia mdhd", 24, 121);
        let film = alone(&moov, 2 * WIDE);
        assert_eq!((refusal(&film), strict_refusal(&film)), (0, 11));
        assert_eq!(stretch(&film, 1, 24, 73, &mut [9; 4]), (0, (2, 120)));
        for (id, a, b, room) in [(1, 24, 73, 20), (2, 24, 73, 20), (1, 5, 5, 20), (1, 24, 73, 0)] {
            assert_eq!(write_slip(&film, id, a, b, &mut vec![9; room]), (11, 0));
        }
        // A film with faults 11 and 12.
        let short = alone(&moov, 1000);
        assert_eq!((refusal(&short), strict_refusal(&short)), (12, 11));
    }
}

/// "a chunk's offset plus the sizes of its samples passes the file's end": the file's length is the number.
#[test]
fn number_12() {
    let moov = w_movie().moov();
    assert_eq!([1150, 1149, 970].map(|length| refused(&moov, length)), [0, 12, 12]);
    let second = |offset: u64, length: u64| refused(&wide_w(&[1000, offset]), length);
    assert_eq!([4026, 4027].map(|offset| second(offset, 4096)), [0, 12]);
    assert_eq!([WIDE, WIDE + 1].map(|offset| second(offset, WIDE + 70)), [0, 12]);
    assert_eq!([LONGEST - 70, LONGEST - 69, LONGEST].map(|offset| second(offset, LONGEST)), [0, 12, 12]);
    // Ends that come back to a small number in 64 bits, or 63.
    for offset in [1 << 63, u64::MAX - 70, u64::MAX - 69, u64::MAX - 1, u64::MAX] {
        assert_eq!(second(offset, LONGEST), 12, "{offset}");
    }
    // A chunk of no bytes at the end, and one byte further.
    let none = |offset: u64| {
        let mut moov = movie(&[w_with(|track| track.stsz = Sizes::Each(vec![0; 4]))]).moov();
        moov.replace(STCO, co64(&[0, offset]));
        refused(&moov, LONGEST)
    };
    assert_eq!([LONGEST, LONGEST + 1, u64::MAX].map(none), [0, 12, 12]);
}

/// "each condition is judged on files that pass all lower ones"; "19, data elsewhere or no such entry, judged after 11 and before 12"
#[test]
fn the_order_of_refusals() {
    let mut moov = movie(&[w_with(|track| track.edits = edits(&[(60, 61)]))]).moov();
    moov.replace(STCO, co64(&[u64::MAX, 900]));
    let mut next = |change: fn(&mut Node)| {
        change(&mut moov);
        let film = alone(&moov, WIDE);
        (refusal(&film), strict_refusal(&film))
    };
    assert_eq!(next(|moov| moov.at(CO64).body[8..16].fill(0)), (13, 13));
    assert_eq!(next(|moov| moov.at(CO64).body[8..16].fill(255)), (12, 12));
    assert_eq!(next(|moov| moov.at("trak mdia minf dinf dref").body[19] = 0), (19, 19));
    assert_eq!(next(|moov| moov.set("trak mdia mdhd", 24, 121)), (19, 11));
    assert_eq!(next(|moov| moov.set("trak mdia minf stbl stts", 20, u32::MAX)), (10, 10));
    assert_eq!(next(|moov| moov.set("trak mdia minf stbl stts", 16, 4)), (9, 9));
    assert_eq!(next(|moov| moov.set("mvhd", 20, 0)), (8, 8));
    assert_eq!(next(|moov| moov.set("trak tkhd", 20, 0)), (7, 7));
    assert_eq!(next(|moov| moov.replace(CO64, co64(&vec![0; 1_048_577]))), (6, 6));
    assert_eq!(next(|moov| moov.resize("mvhd", 99)), (5, 5));
    assert_eq!(next(|moov| moov.at(CO64).body[0] = 1), (4, 4));
    assert_eq!(next(|moov| moov.push(STBL, stco(&[]))), (3, 3));
    assert_eq!(next(|moov| moov.at(STBL).tail = vec![0]), (2, 2));
    assert_eq!(refused(&moov, LONGEST + 1), 1);
}

#[test]
fn refusals_of_questions() {
    let film = alone(&wide_w(&[WIDE, LONGEST - 70]), LONGEST);
    let refused = alone(&wide_w(&[WIDE, LONGEST - 69]), LONGEST);
    let mut room: [u64; 20] = [9; 20];
    let mut list: [u32; 20] = [9; 20];
    let mut bytes = [9; 40];
    // "Order: file refusal, 14, 15 or 18, then 16"
    assert_eq!([sample(&refused, 2, 0), sample(&film, 2, 0), sample(&film, 1, 0)].map(|answer| answer.0), [12, 14, 15]);
    assert_eq!([stretch(&refused, 2, 5, 5, &mut []), stretch(&film, 2, 5, 5, &mut [])], [(12, (0, 0)), (14, (0, 0))]);
    assert_eq!(stretch(&film, 1, 5, 5, &mut []), (15, (0, 0)));
    assert_eq!(stretch(&film, 1, 24, 73, &mut room[..3]), (16, (0, 0)));
    assert_eq!([track_list(&refused, &mut list), track_list(&film, &mut list[..7])], [(12, 0), (16, 0)]);
    assert_eq!([write_slip(&refused, 2, 5, 5, &mut []), write_slip(&film, 2, 5, 5, &mut [])], [(12, 0), (14, 0)]);
    assert_eq!(write_slip(&film, 1, 5, 5, &mut []), (15, 0));
    // Seven bytes before the pairs, 2^32 + 100 in five, 50 in one, 2^63 - 71 in nine and 70 in one.
    let length = 7 + 5 + 1 + 9 + 1;
    assert_eq!(write_slip(&film, 1, 24, 73, &mut bytes[..length - 1]), (16, 0));
    assert_eq!((room, list, bytes), ([9; 20], [9; 20], [9; 40]));
    assert_eq!(write_slip(&film, 1, 24, 73, &mut bytes[..length]), (0, u64::try_from(length).unwrap()));
    assert_eq!([feature(&film, 2, 0), feature(&film, 1, 0)], [(14, 0), (18, 0)]);
    assert_eq!([start_at(&refused, 1, 1).0, start_at(&film, 2, 0).0, start_at(&film, 1, 5).0], [12, 14, 15]);
}

/// "It is written only if some number is 2^32 or more"
#[test]
fn the_form_of_a_slip() {
    let form = |offsets: [u64; 2], a: u32, b: u32| {
        let mut slip = [0; 40];
        assert_eq!(write_slip(&alone(&wide_w(&offsets), LONGEST), 1, a, b, &mut slip).0, 0);
        slip[0]
    };
    // The table's width plays no part, and only the pairs of the stretch count: sample 1 begins at the first chunk, sample 2 100 bytes on.
    assert_eq!(form([1000, 900], 0, 120), 1);
    assert_eq!(form([WIDE - 1, WIDE - 1], 0, 24), 1);
    assert_eq!(form([WIDE, 0], 0, 24), 2);
    assert_eq!(form([WIDE - 101, 0], 24, 48), 1);
    assert_eq!(form([WIDE - 100, 0], 24, 48), 2);
    assert_eq!(form([WIDE, 900], 72, 120), 1);
    assert_eq!(form([0, LONGEST - 70], 72, 120), 2);
}

/// A chunk of more bytes than 32 bits count, at an offset that stco holds.
#[test]
fn a_pair_of_more_than_four_gigabytes() {
    let large = w_with(|track| track.stsz = Sizes::Common(u32::MAX, 4));
    let film = alone(&movie(&[large]).moov(), 4 * WIDE);
    let mut room = [9; 4];
    assert_eq!(stretch(&film, 1, 0, 120, &mut room), (0, (2, 4 * (WIDE - 1))));
    assert_eq!(room, [1000, 3 * (WIDE - 1), 900, WIDE - 1]);
    // Sample 2 begins where 32 bits end.
    assert_eq!([2, 3].map(|n| sample(&film, 1, n).1.offset), [WIDE + 999, 2 * WIDE + 998]);
    let mut slip = [0; 40];
    let (_, length) = write_slip(&film, 1, 0, 120, &mut slip);
    assert_eq!(slip[0], 2);
    let mut pairs = [0; 4];
    assert_eq!(read_any_slip(&slip[..usize::try_from(length).unwrap()], &mut pairs).0, 0);
    assert_eq!(pairs, room);
    // One sample alone has a length and an offset of 32 bits.
    assert_eq!(write_slip(&film, 1, 0, 24, &mut slip).0, 0);
    assert_eq!(slip[0], 1);
}
