//! The slip, from document 01, "The slip", and document 02, Asks 5 and 9.
//!
//! Nothing here is quick or clever: the bytes are cut into pieces after each byte without the top bit, each piece is
//! compared with the writing of the number that it counts, and each number is asked for its rule.

/// Numbers of a slip of form 1 are below this.
pub const LIMIT: u128 = 1 << 32;

/// Which numbers a form has: those below a limit, which are written in so many bytes at most.
#[derive(Clone, Copy, Debug, PartialEq)]
pub struct Width {
    pub limit: u128,
    pub most_bytes: usize,
}

/// "is 2^32 or more, has the top bit set on its fifth byte"
pub const FORM_1: Width = Width { limit: LIMIT, most_bytes: 5 };

/// "form 2 has numbers below 2^64 in up to ten bytes"; "Ask 5's 2^32 and fifth byte become 2^64 and tenth"
pub const FORM_2: Width = Width { limit: 1 << 64, most_bytes: 10 };

/// The most pairs that a slip may have.
pub const MOST_PAIRS: u128 = 1_048_576;

pub const NO_ROOM: u32 = 16;
pub const MALFORMED: u32 = 17;

/// The writing of a number: groups of seven bits, lowest group first, top bit set on all but the last, in the fewest bytes.
pub fn writing(n: u128) -> Vec<u8> {
    let mut groups = vec![n % 128];
    let mut rest = n / 128;
    while rest > 0 {
        groups.push(rest % 128);
        rest /= 128;
    }
    let last = groups.len() - 1;
    let mut bytes = Vec::new();
    for (i, group) in groups.iter().enumerate() {
        let byte = if i < last { 128 + group } else { *group };
        bytes.push(u8::try_from(byte).unwrap());
    }
    bytes
}

/// Bytes cut after each byte without the top bit, and what remains after the last such byte.
pub fn cut(bytes: &[u8]) -> (Vec<Vec<u8>>, Vec<u8>) {
    let mut pieces = Vec::new();
    let mut piece = Vec::new();
    for byte in bytes {
        piece.push(*byte);
        if *byte < 128 {
            pieces.push(piece);
            piece = Vec::new();
        }
    }
    (pieces, piece)
}

/// The number of form 1 whose writing a piece is, if it is one's.
pub fn value(piece: &[u8]) -> Option<u128> {
    value_within(FORM_1, piece)
}

/// The number of that width whose writing a piece is, if it is one's.
pub fn value_within(width: Width, piece: &[u8]) -> Option<u128> {
    let mut sum: u128 = 0;
    let mut unit: u128 = 1;
    for byte in piece.iter().take(18) {
        sum += unit * u128::from(byte % 128);
        unit *= 128;
    }
    if sum < width.limit && writing(sum) == piece {
        Some(sum)
    } else {
        None
    }
}

/// What stands at a place.
#[derive(Clone, Copy, Debug, PartialEq)]
pub enum Number {
    /// The number, and the place past it.
    Good(u128, usize),
    /// The first byte of a number that is not so written.
    Broken(usize),
    /// The end of the bytes, which comes before the number's.
    Short(usize),
}

/// The number of form 1 at a place.
pub fn number_at(bytes: &[u8], at: usize) -> Number {
    number_within(FORM_1, bytes, at)
}

/// The number of that width at a place. No byte mends the most bytes if all have the top bit set, so they are broken and not cut short.
pub fn number_within(width: Width, bytes: &[u8], at: usize) -> Number {
    if at >= bytes.len() {
        return Number::Short(bytes.len());
    }
    let (pieces, remaining) = cut(&bytes[at..]);
    match pieces.first() {
        Some(piece) => match value_within(width, piece) {
            Some(n) => Number::Good(n, at + piece.len()),
            None => Number::Broken(at),
        },
        None if remaining.len() >= width.most_bytes => Number::Broken(at),
        None => Number::Short(bytes.len()),
    }
}

/// The reading place, which moves past each number and counts the numbers read.
#[derive(Clone, Copy, Debug, PartialEq)]
pub struct Cursor {
    pub at: usize,
    pub count: u64,
}

/// What stands at a cursor, as a number of form 1, and the cursor after it: past a good number, and otherwise the same.
pub fn next_number(bytes: &[u8], cursor: Cursor) -> (Number, Cursor) {
    next_within(FORM_1, bytes, cursor)
}

/// The same for numbers of that width.
pub fn next_within(width: Width, bytes: &[u8], cursor: Cursor) -> (Number, Cursor) {
    let read = number_within(width, bytes, cursor.at);
    let after = match read {
        Number::Good(_, past) => Cursor { at: past, count: cursor.count.saturating_add(1) },
        _ => cursor,
    };
    (read, after)
}

/// A slip's numbers without its pairs, of 32 bits or, as the reader of both forms answers them, of 64.
#[derive(Clone, Copy, Debug, PartialEq, Default)]
pub struct Head<N = u32> {
    pub id: N,
    pub scale: N,
    pub a: N,
    pub b: N,
    pub pairs: N,
}

/// Whether a number keeps document 01's rule for it, where the form may be up to the last. So many stand before it in the slip, the form first.
/// "the form is 1, ID and scale are not 0, a < b, there are 1 to 1,048,576 pairs"
fn keeps(last_form: u128, before: &[u128], n: u128) -> bool {
    match before.len() {
        0 => (1..=last_form).contains(&n),
        1 | 2 => n != 0,
        // "b at or below a is b's fault"
        4 => n > before[3],
        5 => (1..=MOST_PAIRS).contains(&n),
        _ => true,
    }
}

/// Whether all numbers of a slip are there: six, and two for each pair.
fn all_there(numbers: &[u128]) -> bool {
    numbers.len() >= 6 && u128::try_from(numbers.len()).unwrap() == 6 + 2 * numbers[5]
}

/// The width of the number after these. "The form itself is always read by form 1's limits"
fn width_after(before: &[u128]) -> Width {
    match before.first() {
        Some(2) => FORM_2,
        _ => FORM_1,
    }
}

/// The form in which numbers are written. "It is written only if some number is 2^32 or more"
fn form_for(numbers: &[u128]) -> u128 {
    if numbers.iter().any(|n| *n >= LIMIT) {
        2
    } else {
        1
    }
}

/// Every number of a slip whose form is up to the last, in order, the form first; or the place of its first fault, from left to right: "the first
/// byte of the first number that breaks a rule, the slip's length if it ends early, or the first surplus byte".
fn accepted(last_form: u128, bytes: &[u8]) -> Result<Vec<u128>, usize> {
    let (pieces, remaining) = cut(bytes);
    let mut numbers = Vec::new();
    let mut place = 0;
    for piece in &pieces {
        match value_within(width_after(&numbers), piece) {
            Some(n) if !all_there(&numbers) && keeps(last_form, &numbers, n) => numbers.push(n),
            // A surplus byte, a number that is not so written, or one that breaks its rule.
            _ => return Err(place),
        }
        place += piece.len();
    }
    match (all_there(&numbers), remaining.len()) {
        // "without one it is malformed at place 0, if no other rule is broken"
        (true, 0) if numbers[0] != form_for(&numbers) => Err(0),
        (true, 0) => Ok(numbers),
        // "the first surplus byte"
        (true, _) => Err(place),
        // "has the top bit set on its fifth byte"
        (false, length) if length >= width_after(&numbers).most_bytes => Err(place),
        // "the slip's length if it ends early"
        (false, _) => Err(bytes.len()),
    }
}

/// Reads a slip whose form is up to the last. "in slip reading 17, then 16"; "lent buffers keep their contents"; "an accepted answer fills the first
/// places and leaves the rest".
fn read_up_to<N>(last_form: u128, bytes: &[u8], room: &mut [N]) -> (u32, Head<N>, usize)
where
    N: TryFrom<u128, Error: std::fmt::Debug> + Copy + Default,
{
    let numbers = match accepted(last_form, bytes) {
        Ok(numbers) => numbers,
        Err(place) => return (MALFORMED, Head::default(), place),
    };
    let mut answered = Vec::new();
    for n in numbers {
        answered.push(N::try_from(n).unwrap());
    }
    let pairs = &answered[6..];
    if room.len() < pairs.len() {
        return (NO_ROOM, Head::default(), 0);
    }
    room[..pairs.len()].copy_from_slice(pairs);
    (0, Head { id: answered[1], scale: answered[2], a: answered[3], b: answered[4], pairs: answered[5] }, 0)
}

/// Reads a slip of form 1. Answers the refusal, 0 for none; the numbers after the form, 0 on refusal; and the place, 0 but with 17. The pairs go to
/// the room. "the old reader refuses form 2 by 17"
pub fn read_slip(bytes: &[u8], room: &mut [u32]) -> (u32, Head, usize) {
    read_up_to(1, bytes, room)
}

/// The same for a slip of form 1 or 2. "The new reader gives for a form 1 slip what the old one gave"
pub fn read_any_slip(bytes: &[u8], room: &mut [u64]) -> (u32, Head<u64>, usize) {
    read_up_to(2, bytes, room)
}

/// The slip of these numbers, in the form that they need: "every set of numbers still has a single slip".
pub fn slip_writing(head: Head<u64>, pairs: &[(u64, u64)]) -> Vec<u8> {
    let mut numbers = [head.id, head.scale, head.a, head.b, head.pairs].map(u128::from).to_vec();
    for (offset, length) in pairs {
        numbers.extend([*offset, *length].map(u128::from));
    }
    numbers.insert(0, form_for(&numbers));
    numbers.into_iter().flat_map(writing).collect()
}

/// Stores bytes at a place where they fit whole and answers the place past them; otherwise stores none and answers the place.
fn put(out: &mut [u8], at: usize, bytes: &[u8]) -> usize {
    match at.checked_add(bytes.len()) {
        Some(past) if past <= out.len() => {
            out[at..past].copy_from_slice(bytes);
            past
        }
        _ => at,
    }
}

/// How many bytes a number is written in.
pub fn number_len(n: u64) -> usize {
    writing(u128::from(n)).len()
}

/// Writes a number at a place.
pub fn put_number(out: &mut [u8], at: usize, n: u64) -> usize {
    put(out, at, &writing(u128::from(n)))
}

/// The writing of the numbers before a slip's pairs, after the form 2 where wide, else 1.
fn head_writing(head: Head<u64>, wide: bool) -> Vec<u8> {
    let mut bytes = writing(if wide { 2 } else { 1 });
    for n in [head.id, head.scale, head.a, head.b, head.pairs] {
        bytes.extend(writing(u128::from(n)));
    }
    bytes
}

/// How many bytes the numbers before a slip's pairs are written in, the form included, which takes one byte.
pub fn head_len(head: Head<u64>) -> usize {
    head_writing(head, false).len()
}

/// Writes the numbers before a slip's pairs at the beginning of the bytes.
pub fn put_head(out: &mut [u8], head: Head<u64>, wide: bool) -> usize {
    put(out, 0, &head_writing(head, wide))
}

#[cfg(test)]
mod tests {
    use super::*;

    /// The slip of film W's stretch 24 to 73.
    const PAPER: [u8; 13] = [0x01, 0x01, 0xd8, 0x04, 0x18, 0x49, 0x02, 0xcc, 0x08, 0x32, 0x84, 0x07, 0x46];
    const HEAD: Head = Head { id: 1, scale: 600, a: 24, b: 73, pairs: 2 };
    const WIDE_HEAD: Head<u64> = Head { id: 1, scale: 600, a: 24, b: 73, pairs: 2 };

    #[test]
    fn the_papers_slip_is_read() {
        let mut room = [9; 5];
        assert_eq!(read_slip(&PAPER, &mut room), (0, HEAD, 0));
        assert_eq!(room, [1100, 50, 900, 70, 9]);
    }

    #[test]
    fn the_papers_slip_is_written() {
        let mut out = [0; 13];
        let mut at = put_head(&mut out, WIDE_HEAD, false);
        for n in [1100, 50, 900, 70] {
            at = put_number(&mut out, at, n);
        }
        assert_eq!((at, out), (13, PAPER));
    }

    #[test]
    fn a_refusal_leaves_the_room() {
        let mut room = [9; 3];
        assert_eq!(read_slip(&PAPER, &mut room), (NO_ROOM, Head::default(), 0));
        assert_eq!(read_slip(&PAPER[..12], &mut room), (MALFORMED, Head::default(), 12));
        assert_eq!(room, [9; 3]);
    }

    /// The place of a malformed slip's fault.
    fn place(bytes: &[u8]) -> usize {
        let (refusal, head, place) = read_slip(bytes, &mut [0; 8]);
        assert_eq!((refusal, head), (MALFORMED, Head::default()), "{bytes:02x?}");
        place
    }

    /// The paper's slip with some of its bytes exchanged for others.
    fn with(part: std::ops::Range<usize>, bytes: &[u8]) -> Vec<u8> {
        [&PAPER[..part.start], bytes, &PAPER[part.end..]].concat()
    }

    /// Where each number of the paper's slip is.
    const NUMBERS: [std::ops::Range<usize>; 10] = [0..1, 1..2, 2..4, 4..5, 5..6, 6..7, 7..9, 9..10, 10..12, 12..13];

    #[test]
    fn a_slip_that_ends_early_has_its_length() {
        for end in 0..PAPER.len() {
            assert_eq!(place(&PAPER[..end]), end);
        }
    }

    #[test]
    fn a_number_not_so_written_has_its_first_byte() {
        for number in NUMBERS {
            let start = number.start;
            for wrong in [&[0x80, 0x00][..], &[0xff, 0xff, 0xff, 0xff, 0x10], &[0x81, 0x80, 0x80, 0x80, 0x80, 0x01]] {
                assert_eq!(place(&with(number.clone(), wrong)), start);
                // The slip ends early too.
                assert_eq!(place(&[&PAPER[..start], wrong].concat()), start);
            }
        }
    }

    #[test]
    fn five_top_bits_at_the_end_are_broken_and_four_are_cut_short() {
        for number in NUMBERS {
            let start = number.start;
            assert_eq!(place(&[&PAPER[..start], &[0x80; 5]].concat()), start);
            assert_eq!(place(&[&PAPER[..start], &[0xff; 6]].concat()), start);
            assert_eq!(place(&[&PAPER[..start], &[0x80; 4]].concat()), start + 4);
        }
    }

    #[test]
    fn a_number_that_breaks_its_rule_has_its_first_byte() {
        for form in [&[0x00][..], &[0x02], &[0x81, 0x01]] {
            assert_eq!(place(&with(0..1, form)), 0);
        }
        assert_eq!(place(&with(1..2, &[0x00])), 1);
        assert_eq!(place(&with(2..4, &[0x00])), 2);
        // The number of pairs, also where the pairs are missing.
        for pairs in [&[0x00][..], &[0x81, 0x80, 0x40]] {
            assert_eq!(place(&with(6..7, pairs)), 6);
            assert_eq!(place(&with(6..13, pairs)), 6);
        }
    }

    #[test]
    fn b_at_or_below_a_is_bs_fault() {
        for b in [0x18, 0x17, 0x00] {
            assert_eq!(place(&with(5..6, &[b])), 5);
        }
        for a in [&[0x49][..], &[0x4a], &[0xff, 0xff, 0xff, 0xff, 0x0f]] {
            assert_eq!(place(&with(4..5, a)), 4 + a.len());
        }
    }

    #[test]
    fn surplus_has_its_first_byte() {
        for surplus in [&[0x00][..], &[0x80], &[0xcc, 0x08], &[0x80; 4], &[0x80; 5], &PAPER] {
            assert_eq!(place(&[&PAPER, surplus].concat()), 13);
        }
        // A pair, and half a pair, more than the number of pairs says.
        assert_eq!(place(&with(6..7, &[0x01])), 10);
        assert_eq!(place(&with(6..7, &[0x01])[..12]), 10);
    }

    #[test]
    fn the_first_fault_counts() {
        // An ID of 0 in a slip that ends with it; the same with surplus bytes; b before a padded number of pairs.
        assert_eq!(place(&[0x01, 0x00]), 1);
        assert_eq!(place(&[&with(1..2, &[0x00]), &[0x00][..]].concat()), 1);
        assert_eq!(place(&with(5..7, &[0x18, 0x82, 0x00])), 5);
        // The form before all that follows, which is no writing at all.
        assert_eq!(place(&[0x02, 0x80, 0x80]), 0);
    }

    #[test]
    fn each_number_has_one_writing() {
        // Every string of up to two bytes: those that are a number's writing are the writing of just that number.
        let mut good = 0;
        for first in 0..=255u8 {
            for second in 0..=255u8 {
                if let Some(n) = value(&[first, second]) {
                    assert_eq!(writing(n), [first, second]);
                    good += 1;
                }
            }
        }
        assert_eq!(good, 16384 - 128);
    }

    #[test]
    fn numbers_at_the_edges_read_back() {
        for n in [0, 127, 128, 16383, 16384, (1 << 28) - 1, 1 << 28, LIMIT - 1] {
            let bytes = writing(n);
            assert_eq!(number_at(&bytes, 0), Number::Good(n, bytes.len()));
        }
        for n in [LIMIT, LIMIT + 1, 1 << 35, 1 << 63, (1 << 64) - 1] {
            assert_eq!(number_at(&writing(n), 0), Number::Broken(0));
        }
    }

    #[test]
    fn broken_and_short_numbers_have_their_places() {
        assert_eq!(number_at(&[5, 0x80, 0x00], 1), Number::Broken(1));
        assert_eq!(number_at(&[5, 0x80, 0x80], 1), Number::Short(3));
        assert_eq!(number_at(&[0x80; 4], 0), Number::Short(4));
        assert_eq!(number_at(&[0x80; 5], 0), Number::Broken(0));
        assert_eq!(number_at(&[5], 7), Number::Short(1));
    }

    #[test]
    fn the_most_pairs_are_accepted() {
        // All pairs are (0,0) and there, so that only their number can be at fault.
        for (pairs, refusal, place) in [(1_048_576, 0, 0), (1_048_577, MALFORMED, 5)] {
            let mut slip = vec![0; 3_000_000];
            let at = put_head(&mut slip, Head { id: 1, scale: 1, a: 0, b: 1, pairs }, false);
            slip.truncate(at + 2 * usize::try_from(pairs).unwrap());
            let mut room = vec![9; 2_097_152];
            let (number, _, at) = read_slip(&slip, &mut room);
            assert_eq!((number, at), (refusal, place));
        }
    }

    #[test]
    fn a_cursor_counts_good_numbers() {
        let bytes = [0xd8, 0x04, 0x18, 0x80, 0x00];
        let (_, c) = next_number(&bytes, Cursor { at: 0, count: 0 });
        assert_eq!(c, Cursor { at: 2, count: 1 });
        let (_, c) = next_number(&bytes, c);
        assert_eq!(c, Cursor { at: 3, count: 2 });
        assert_eq!(next_number(&bytes, c), (Number::Broken(3), c));
    }
}
