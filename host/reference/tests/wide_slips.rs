//! Slips of document 02, "Films above two gigabytes": form 2, the reader of both forms, and the place of each fault.
use reference::maker::{slips, Random};
use reference::slip::*;
use std::ops::Range;

/// The slip of film W's stretch 24 to 73, in document 01.
const PAPER: [u8; 13] = [0x01, 0x01, 0xd8, 0x04, 0x18, 0x49, 0x02, 0xcc, 0x08, 0x32, 0x84, 0x07, 0x46];

/// The same in form 2, the second chunk being at 2^32.
const WIDE: [u8; 16] = [0x02, 0x01, 0xd8, 0x04, 0x18, 0x49, 0x02, 0xcc, 0x08, 0x32, 0x80, 0x80, 0x80, 0x80, 0x10, 0x46];
const HEAD: Head<u64> = Head { id: 1, scale: 600, a: 24, b: 73, pairs: 2 };

/// Where each number of it is.
const NUMBERS: [Range<usize>; 10] = [0..1, 1..2, 2..4, 4..5, 5..6, 6..7, 7..9, 9..10, 10..15, 15..16];

const MOST: [u8; 10] = [0xff, 0xff, 0xff, 0xff, 0xff, 0xff, 0xff, 0xff, 0xff, 0x01];

/// The place of a malformed slip's fault.
fn place(bytes: &[u8]) -> usize {
    let (refusal, head, place) = read_any_slip(bytes, &mut [0; 8]);
    assert_eq!((refusal, head), (MALFORMED, Head::default()), "{bytes:02x?}");
    place
}

/// The form 2 slip with some of its bytes exchanged for others.
fn with(part: Range<usize>, bytes: &[u8]) -> Vec<u8> {
    [&WIDE[..part.start], bytes, &WIDE[part.end..]].concat()
}

fn is_accepted(bytes: &[u8]) -> bool {
    read_any_slip(bytes, &mut [0; 8]).0 == 0
}

/// What the old reader gives, in the new one's width.
fn old(bytes: &[u8], room: usize) -> (u32, Head<u64>, usize, Vec<u64>) {
    let mut numbers = vec![9; room];
    let (refusal, head, place) = read_slip(bytes, &mut numbers);
    let [id, scale, a, b, pairs] = [head.id, head.scale, head.a, head.b, head.pairs].map(u64::from);
    (refusal, Head { id, scale, a, b, pairs }, place, numbers.into_iter().map(u64::from).collect())
}

fn new(bytes: &[u8], room: usize) -> (u32, Head<u64>, usize, Vec<u64>) {
    let mut numbers = vec![9; room];
    let (refusal, head, place) = read_any_slip(bytes, &mut numbers);
    (refusal, head, place, numbers)
}

#[test]
fn form_2_is_read() {
    let mut room = [9; 5];
    assert_eq!(read_any_slip(&WIDE, &mut room), (0, HEAD, 0));
    assert_eq!(room, [1100, 50, 1 << 32, 70, 9]);
}

#[test]
fn form_2_is_written_only_if_some_number_is_2_32_or_more() {
    assert_eq!(slip_writing(HEAD, &[(1100, 50), (900, 70)]), PAPER);
    assert_eq!(slip_writing(HEAD, &[(1100, 50), (1 << 32, 70)]), WIDE);
    let form = |head, pair| slip_writing(head, &[pair])[0];
    let most = u64::from(u32::MAX);
    let head = Head { id: most, scale: most, a: most - 1, b: most, pairs: 1 };
    assert_eq!(form(head, (most, most)), 1);
    for wide in [Head { id: 1 << 32, ..head }, Head { scale: 1 << 32, ..head }, Head { b: 1 << 32, ..head }] {
        assert_eq!(form(wide, (most, most)), 2);
    }
    assert_eq!([form(head, (1 << 32, 0)), form(head, (0, 1 << 32))], [2, 2]);
}

#[test]
fn what_is_written_is_read_back() {
    let ends = [1, 127, 128, (1 << 32) - 1, 1 << 32, (1 << 35) - 1, 1 << 35, (1 << 63) - 1, 1 << 63, u64::MAX];
    for n in ends {
        for head in [Head { id: n, ..HEAD }, Head { scale: n, ..HEAD }, Head { a: 0, b: n, ..HEAD }] {
            for pairs in [[(1, 2), (3, 4)], [(n, 0), (0, 0)], [(0, 0), (0, n)]] {
                let slip = slip_writing(head, &pairs);
                let mut room = [9; 5];
                assert_eq!(read_any_slip(&slip, &mut room), (0, head, 0));
                assert_eq!(room, [pairs[0].0, pairs[0].1, pairs[1].0, pairs[1].1, 9]);
                // The other form, "so every set of numbers still has a single slip".
                assert_eq!(
                    place(&[&[3 - slip[0]], &slip[1..]].concat()),
                    if slip[0] == 1 { 0 } else { fault_in_1(&slip) }
                );
            }
        }
    }
}

/// Where the first number that form 1 does not have begins.
fn fault_in_1(slip: &[u8]) -> usize {
    let (pieces, _) = cut(slip);
    pieces.iter().take_while(|piece| value(piece).is_some()).map(Vec::len).sum()
}

#[test]
fn the_new_reader_gives_for_a_form_1_slip_what_the_old_one_gave() {
    let mut random = Random::new(9);
    let mut seen = [0; 2];
    for _ in 0..20_000 {
        let slip = slips::slip(&mut random);
        let room = random.one(&[0, 3, 4, 300]);
        if slip.first() == Some(&2) {
            assert_eq!(old(&slip, room), (MALFORMED, Head::default(), 0, vec![9; room]));
        } else {
            assert_eq!(new(&slip, room), old(&slip, room), "{slip:02x?}");
            seen[usize::from(new(&slip, room).0 == 0)] += 1;
        }
    }
    assert!(seen.iter().all(|times| *times > 1000), "{seen:?}");
    for end in 0..=PAPER.len() {
        assert_eq!(new(&PAPER[..end], 4), old(&PAPER[..end], 4));
    }
}

#[test]
fn the_old_reader_refuses_form_2_by_17() {
    for slip in [&WIDE[..], &[0x02], &[0x02, 0x80]] {
        assert_eq!(read_slip(slip, &mut [0; 8]), (MALFORMED, Head::default(), 0));
    }
}

#[test]
fn any_number_but_the_count_may_be_the_great_one() {
    // Without the great offset there is none, and then one in each place; a stays below b.
    let narrow = [0x02, 0x01, 0x01, 0x00, 0x01, 0x01, 0x00, 0x00];
    assert_eq!(place(&narrow), 0);
    for number in [1, 2, 4, 6, 7] {
        for great in [&[0x80, 0x80, 0x80, 0x80, 0x10][..], &MOST] {
            assert!(is_accepted(&[&narrow[..number], great, &narrow[number + 1..]].concat()), "{number}");
        }
        let below = [0xff, 0xff, 0xff, 0xff, 0x0f];
        assert_eq!(place(&[&narrow[..number], &below, &narrow[number + 1..]].concat()), 0, "{number}");
    }
    // a at 2^32, and b one above it.
    let both = [&[0x80, 0x80, 0x80, 0x80, 0x10][..], &[0x81, 0x80, 0x80, 0x80, 0x10]].concat();
    assert!(is_accepted(&[&narrow[..3], &both, &narrow[5..]].concat()));
    // "there are 1 to 1,048,576 pairs": the count keeps its limit, and its place is its own.
    for count in [&[0x00][..], &[0x81, 0x80, 0x40], &[0x80, 0x80, 0x80, 0x80, 0x10], &MOST] {
        assert_eq!(place(&with(6..7, count)), 6);
        assert_eq!(place(&with(6..16, count)), 6);
    }
}

#[test]
fn without_a_great_number_place_0_comes_last() {
    let narrow = with(10..15, &[0x84, 0x07]);
    assert_eq!(place(&narrow), 0);
    // "if no other rule is broken": an early end, a surplus byte, a zero ID, a number not in its fewest bytes.
    for end in 1..narrow.len() {
        assert_eq!(place(&narrow[..end]), end);
    }
    assert_eq!(place(&[&narrow[..], &[0x00]].concat()), narrow.len());
    assert_eq!(place(&[&narrow[..], &[0x80]].concat()), narrow.len());
    assert_eq!(place(&[&narrow[..1], &[0x00], &narrow[2..]].concat()), 1);
    assert_eq!(place(&[&narrow[..9], &[0xb2, 0x00], &narrow[10..]].concat()), 9);
}

#[test]
fn the_form_is_read_by_form_1s_limits() {
    for form in [&[0x00][..], &[0x03], &[0x7f], &[0x82, 0x00], &[0x82, 0x01], &[0xff, 0xff, 0xff, 0xff, 0x10], &MOST] {
        assert_eq!(place(&with(0..1, form)), 0, "{form:02x?}");
    }
    for (tops, at) in [(1, 1), (4, 4), (5, 0), (9, 0), (10, 0)] {
        assert_eq!(place(&vec![0x80; tops]), at);
        assert_eq!(place(&vec![0xff; tops]), at);
    }
    assert_eq!(place(&[]), 0);
}

#[test]
fn a_slip_that_ends_early_has_its_length() {
    for end in 0..WIDE.len() {
        assert_eq!(place(&WIDE[..end]), end);
    }
}

#[test]
fn a_number_not_so_written_has_its_first_byte() {
    let above = [0x80, 0x80, 0x80, 0x80, 0x80, 0x80, 0x80, 0x80, 0x80, 0x02];
    let eleven = [0x81, 0x80, 0x80, 0x80, 0x80, 0x80, 0x80, 0x80, 0x80, 0x80, 0x01];
    let padded = [0xff, 0xff, 0xff, 0xff, 0xff, 0xff, 0xff, 0xff, 0xff, 0x81, 0x00];
    for number in &NUMBERS[1..] {
        let start = number.start;
        for wrong in [&[0x80, 0x00][..], &[0xff, 0xff, 0xff, 0xff, 0x80, 0x00], &above, &eleven, &padded] {
            assert_eq!(place(&with(number.clone(), wrong)), start);
            // The slip ends early too.
            assert_eq!(place(&[&WIDE[..start], wrong].concat()), start);
        }
    }
}

#[test]
fn ten_top_bits_at_the_end_are_broken_and_nine_are_cut_short() {
    for number in &NUMBERS[1..] {
        let start = number.start;
        for byte in [0x80, 0xff] {
            assert_eq!(place(&[&WIDE[..start], &[byte; 10]].concat()), start);
            assert_eq!(place(&[&WIDE[..start], &[byte; 11]].concat()), start);
            for tops in [4, 5, 9] {
                assert_eq!(place(&[&WIDE[..start], &vec![byte; tops]].concat()), start + tops);
            }
        }
    }
}

#[test]
fn a_number_that_breaks_its_rule_has_its_first_byte() {
    assert_eq!(place(&with(1..2, &[0x00])), 1);
    assert_eq!(place(&with(2..4, &[0x00])), 2);
    for b in [0x18, 0x17, 0x00] {
        assert_eq!(place(&with(5..6, &[b])), 5);
    }
    // "b at or below a is b's fault", also where only a is great.
    assert_eq!(place(&with(4..5, &MOST)), 14);
    assert_eq!(place(&with(4..6, &[MOST, MOST].concat())), 14);
}

#[test]
fn surplus_has_its_first_byte() {
    for surplus in [&[0x00][..], &[0x80], &[0xcc, 0x08], &[0x80; 9], &[0x80; 10], &WIDE] {
        assert_eq!(place(&[&WIDE, surplus].concat()), 16);
    }
    // A pair more than the number of pairs says: the great number is among the surplus bytes, whose first counts.
    assert_eq!(place(&with(6..7, &[0x01])), 10);
}

#[test]
fn a_refusal_leaves_the_room() {
    let mut room = [9; 3];
    assert_eq!(read_any_slip(&WIDE, &mut room), (NO_ROOM, Head::default(), 0));
    assert_eq!(read_any_slip(&PAPER, &mut room), (NO_ROOM, Head::default(), 0));
    // "in slip reading 17, then 16"
    assert_eq!(read_any_slip(&WIDE[..15], &mut room), (MALFORMED, Head::default(), 15));
    assert_eq!(read_any_slip(&with(10..15, &[0x84, 0x07]), &mut room), (MALFORMED, Head::default(), 0));
    assert_eq!(room, [9; 3]);
}

#[test]
fn numbers_of_form_2_at_the_edges() {
    for n in [0, 127, 128, LIMIT - 1, LIMIT, (1 << 35) - 1, 1 << 35, (1 << 63) - 1, 1 << 63, (1 << 64) - 1] {
        let bytes = writing(n);
        assert_eq!(number_within(FORM_2, &bytes, 0), Number::Good(n, bytes.len()));
    }
    assert_eq!(writing((1 << 64) - 1), MOST);
    for n in [1 << 64, (1 << 64) + 1, (1 << 70) - 1, 1 << 70, 1 << 100] {
        assert_eq!(number_within(FORM_2, &writing(n), 0), Number::Broken(0));
    }
    assert_eq!(number_within(FORM_2, &[5, 0x80, 0x00], 1), Number::Broken(1));
    assert_eq!(number_within(FORM_2, &[0x80; 9], 0), Number::Short(9));
    assert_eq!(number_within(FORM_2, &[0x80; 10], 0), Number::Broken(0));
    assert_eq!(number_within(FORM_2, &[5], 7), Number::Short(1));
    let start = Cursor { at: 0, count: 6 };
    assert_eq!(next_within(FORM_2, &MOST, start), (Number::Good((1 << 64) - 1, 10), Cursor { at: 10, count: 7 }));
    assert_eq!(next_within(FORM_1, &MOST, start), (Number::Broken(0), start));
}
