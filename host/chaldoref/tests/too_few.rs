//! What the header says of lent numbers that are too few, and of a return's places that are not in use.
use chaldoref::raw;
use reference::film::w;

/// Numbers that no answer has.
const LEFT: u64 = 7;

/// The result of a call on so many numbers of a room, and the room.
fn called<const N: usize>(room: [u64; N], len: usize, call: impl Fn(*mut u64, usize) -> u32) -> (u32, [u64; N]) {
    assert!(len <= N);
    let mut room = room;
    (call(room.as_mut_ptr(), len), room)
}

fn open(film: &[u8], id: u32, len: usize) -> (u32, [u64; 19]) {
    // SAFETY: The slices are valid for their lengths and do not overlap.
    called([LEFT; 19], len, |room, len| unsafe { raw::chaldoref_open(film.as_ptr(), film.len(), id, room, len) })
}

fn step_start(film: &[u8], n: u32, len: usize) -> (u32, [u64; 29]) {
    // SAFETY: The same.
    called([LEFT; 29], len, |room, len| unsafe {
        raw::chaldoref_step_start(film.as_ptr(), film.len(), 1, n, room, len)
    })
}

fn top_level(header: &[u8], places: [u64; 6], len: usize) -> (u32, [u64; 6]) {
    // SAFETY: The same.
    called(places, len, |room, len| unsafe { raw::chaldoref_top_level_step(header.as_ptr(), header.len(), room, len) })
}

/// The refusals of the film and of the question come first, and nothing is written.
#[test]
fn numbers_that_are_to_be_written() {
    let (film, cut) = (w().bytes(), &w().bytes()[..1000]);
    for len in [0, 1, 18] {
        assert_eq!([open(&film, 1, len), open(&film, 9, len), open(cut, 1, len)], [16, 14, 2].map(|n| (n, [LEFT; 19])));
    }
    for len in [0, 19, 28] {
        let answers = [step_start(&film, 1, len), step_start(&film, 5, len), step_start(cut, 1, len)];
        assert_eq!(answers, [16, 15, 2].map(|n| (n, [LEFT; 29])));
    }
    assert_eq!((open(cut, 1, 19), step_start(cut, 1, 29)), ((2, [0; 19]), (2, [0; 29])));
}

/// Places that are missing count as 0, and nothing is written.
#[test]
fn places_of_a_step_over_the_top_level() {
    let film = w().bytes();
    let (start, long) = ([4096, 0, 0, 0, 0, 0], [1 << 63, 0, 0, 0, 0, 0]);
    assert_eq!(top_level(&film[..16], start, 0), (3, start));
    for len in 1..6 {
        assert_eq!(top_level(&film[..16], start, len), (16, start), "{len}");
        assert_eq!(top_level(&film[..16], long, len), (1, long), "{len}");
        assert_eq!(top_level(&film[..4], start, len), (2, start), "{len}");
    }
    assert_eq!((top_level(&film[..16], start, 6).0, top_level(&film[..16], long, 6)), (0, (1, [0; 6])));
}

/// With fewer than 83 numbers in either return that is joined nothing is written.
#[test]
fn too_few_numbers_of_a_return_that_is_joined() {
    let totals = [LEFT; 83];
    for (more, len) in [(82, 83), (83, 82), (0, 83), (83, 0)] {
        // SAFETY: The same.
        let join = |room, len| unsafe { raw::chaldoref_join_returns(totals.as_ptr(), more, room, len) };
        assert_eq!(called(totals, len, join), (16, totals), "{more} {len}");
    }
}

/// Places past the scales held stay as they are; a number above 32 counts as 32 and stays too.
#[test]
fn places_of_a_return_that_are_not_in_use() {
    let film = w().bytes();
    // SAFETY: The same.
    let add = |totals: [u64; 83]| {
        called(totals, 83, |room, len| unsafe { raw::chaldoref_film_return(film.as_ptr(), film.len(), room, len) })
    };
    let mut unused = [0; 83];
    unused[20..51].fill(LEFT);
    unused[52..].fill(LEFT);
    let (refusal, totals) = add(unused);
    assert_eq!((refusal, &totals[18..20], totals[51]), (0, &[1, 600][..], 120));
    assert!(totals[20..51].iter().chain(&totals[52..]).all(|n| *n == LEFT));
    let mut over = [0; 83];
    over[18] = 40;
    over[19] = 600;
    (20..51).for_each(|i| over[i] = i as u64 | 1 << 40);
    let (refusal, totals) = add(over);
    assert_eq!((refusal, totals[18], totals[51]), (0, 40, 120));
    assert!((20..51).all(|i| totals[i] == i as u64));
    over[19] = 7;
    assert_eq!(add(over), (20, over));
}
