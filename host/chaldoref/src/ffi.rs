//! The library's functions with slices for pointers and lengths, and `Result` for the numbers of refusals. All of the
//! crate's unsafe code is here.
//!
//! What [`raw`] asks of every call holds by construction: each pointer and length are those of one Rust slice or
//! array, so the pointer is aligned, not null and valid for the length, which is at most `isize::MAX` bytes; nothing
//! writes to a `&[u8]` while it is borrowed; a `&mut` slice, and the places that `ask` makes, overlap nothing else.
use crate::answers::{Edit, ProfileRecord, Track};
use crate::film::Film;
use crate::raw;
use crate::refusal::Refusal;
use crate::units::ByteRange;

/// An entry of a list in lent room.
///
/// # Safety
///
/// The type is nothing but 32-bit numbers, one after another: without padding, and any bits are a value of it.
pub unsafe trait Entry {}

// SAFETY: repr(C), and each field is a u32 or repr(transparent) over one.
unsafe impl Entry for Track {}
// SAFETY: the same.
unsafe impl Entry for ProfileRecord {}

// Eight numbers a track, three a record, and two of 64 bits a pair, as include/chaldoref.h counts them.
const _: () = assert!(size_of::<Track>() == 32 && size_of::<ProfileRecord>() == 12);
const _: () = assert!(size_of::<ByteRange>() == 16 && align_of::<ByteRange>() == align_of::<u64>());
const _: () = assert!(size_of::<Edit>() == 24 && align_of::<Edit>() == align_of::<i64>());

/// Room for entries as the numbers that the library fills.
fn numbers<T: Entry>(room: &mut [T]) -> &mut [u32] {
    let count = size_of_val(room) / size_of::<u32>();
    // SAFETY: an `Entry` is u32s without padding, so the same memory is `count` aligned and initialised u32s; whatever
    // is written there leaves valid entries. The result borrows `room`, so nothing else reaches it meanwhile.
    unsafe { std::slice::from_raw_parts_mut(room.as_mut_ptr().cast(), count) }
}

/// Room for pairs as the numbers of 64 bits that the library fills.
fn wide(room: &mut [ByteRange]) -> &mut [u64] {
    // SAFETY: a `ByteRange` is two u64s without padding, of their alignment, so the same memory is twice as many u64s;
    // whatever is written there leaves valid pairs. The result borrows `room`, so nothing else reaches it meanwhile.
    unsafe { std::slice::from_raw_parts_mut(room.as_mut_ptr().cast(), 2 * room.len()) }
}

/// Room for edits as the signed numbers that the library fills.
fn signed(room: &mut [Edit]) -> &mut [i64] {
    // SAFETY: an `Edit` is three i64s without padding, of their alignment; the rest as for pairs.
    unsafe { std::slice::from_raw_parts_mut(room.as_mut_ptr().cast(), 3 * room.len()) }
}

/// The first half of such numbers, as the same number of numbers of 32 bits.
fn narrow(room: &mut [u64]) -> &mut [u32] {
    // SAFETY: u64s are aligned for u32s, and the memory of `len` u64s is more than that of `len` u32s, of which any bits
    // are valid. The result borrows `room`, so nothing else reaches it meanwhile.
    unsafe { std::slice::from_raw_parts_mut(room.as_mut_ptr().cast(), room.len()) }
}

/// Makes the first numbers, of which so many were filled with 32 bits each, ones of 64 bits. From the last one on, so
/// that none is written over before it is read.
fn widen(room: &mut [u64], count: usize) {
    for i in (0..count).rev() {
        let number = u64::from(narrow(room)[i]);
        room[i] = number;
    }
}

/// Puts a question to a film, by the one or by the other way in.
macro_rules! of_film {
    ($film:expr, $whole:ident, $alone:ident, $($argument:expr),*) => {
        match $film {
            // SAFETY: slices' own pointers and lengths, as the module says.
            Film::Whole(file) => unsafe { raw::$whole(file.as_ptr(), file.len(), $($argument),*) },
            // SAFETY: the same.
            Film::Moov { moov, length } => unsafe { raw::$alone(moov.as_ptr(), moov.len(), length, $($argument),*) },
        }
    };
}

/// Puts a question with the places that its answer has. What comes back is whether it is answered, and the places' numbers.
fn put<T: Copy + Default, const PLACES: usize>(
    question: impl FnOnce(*mut T, usize) -> u32,
) -> (Result<(), Refusal>, [T; PLACES]) {
    let mut places = [T::default(); PLACES];
    let number = question(places.as_mut_ptr(), PLACES);
    (answered(number), places)
}

/// The refusal of that number, if it is one.
fn answered(number: u32) -> Result<(), Refusal> {
    match number {
        0 => Ok(()),
        number => Err(Refusal::from_number(number).unwrap_or_else(|| broken())),
    }
}

/// The same for a question whose refusals say nothing but their numbers.
fn ask<T: Copy + Default, const PLACES: usize>(
    question: impl FnOnce(*mut T, usize) -> u32,
) -> Result<[T; PLACES], Refusal> {
    let (answered, places) = put(question);
    answered.map(|()| places)
}

/// What the library's proved contracts rule out, for every input.
pub fn broken() -> ! {
    panic!("libchaldoref answered what its contract rules out: it does not belong to this version of the crate")
}

/// A number that the library promises to be in range.
pub fn promised<From, To: TryFrom<From>>(number: From) -> To {
    To::try_from(number).unwrap_or_else(|_| broken())
}

pub fn track_list(film: Film, room: &mut [Track]) -> Result<[u64; 1], Refusal> {
    let room = numbers(room);
    ask(|places, len| {
        of_film!(film, chaldoref_track_list, chaldoref_moov_track_list, room.as_mut_ptr(), room.len(), places, len)
    })
}

pub fn profile(film: Film, id: u32, room: &mut [ProfileRecord]) -> Result<[u64; 1], Refusal> {
    let room = numbers(room);
    ask(|places, len| {
        of_film!(film, chaldoref_profile, chaldoref_moov_profile, id, room.as_mut_ptr(), room.len(), places, len)
    })
}

pub fn check_profile(film: Film, id: u32) -> Result<[u64; 1], Refusal> {
    ask(|places, len| of_film!(film, chaldoref_check_profile, chaldoref_moov_check_profile, id, places, len))
}

pub fn check_quay(film: Film) -> Result<[u64; 2], Refusal> {
    ask(|places, len| of_film!(film, chaldoref_check_quay, chaldoref_moov_check_quay, places, len))
}

/// As many numbers has a film return.
pub const FILM_RETURN_NUMBERS: usize = 83;
pub type FilmTotals = [u64; FILM_RETURN_NUMBERS];

/// Adds a film to a return.
pub fn film_return(film: Film, totals: &mut FilmTotals) -> Result<(), Refusal> {
    let (totals, len) = (totals.as_mut_ptr(), totals.len());
    answered(of_film!(film, chaldoref_film_return, chaldoref_moov_film_return, totals, len))
}

/// Joins a return to another.
pub fn join_returns(more: &FilmTotals, totals: &mut FilmTotals) -> Result<(), Refusal> {
    // SAFETY: The pointers are to as many numbers as is said, and the two are apart.
    answered(unsafe { raw::chaldoref_join_returns(more.as_ptr(), more.len(), totals.as_mut_ptr(), totals.len()) })
}

pub fn feature(film: Film, id: u32, code: u32) -> Result<[u64; 1], Refusal> {
    ask(|places, len| of_film!(film, chaldoref_feature, chaldoref_moov_feature, id, code, places, len))
}

pub fn peak(film: Film, id: u32, code: u32) -> Result<[u64; 2], Refusal> {
    ask(|places, len| of_film!(film, chaldoref_peak, chaldoref_moov_peak, id, code, places, len))
}

/// Whether the slip is read; and its numbers, the last being the place with refusal 17.
pub fn read_slip(slip: &[u8], room: &mut [ByteRange]) -> (Result<(), Refusal>, [u64; 6]) {
    let room = wide(room);
    let (answered, places) = put(|places, len| {
        let room = narrow(room);
        // SAFETY: slices' own pointers and lengths, as the module says.
        unsafe { raw::chaldoref_read_slip(slip.as_ptr(), slip.len(), room.as_mut_ptr(), room.len(), places, len) }
    });
    if answered.is_ok() {
        widen(room, 2 * promised::<u64, usize>(places[4]));
    }
    (answered, places)
}

/// The same of a slip of either form.
pub fn read_any_slip(slip: &[u8], room: &mut [ByteRange]) -> (Result<(), Refusal>, [u64; 6]) {
    let room = wide(room);
    // SAFETY: slices' own pointers and lengths, as the module says.
    put(|places, len| unsafe {
        raw::chaldoref_read_any_slip(slip.as_ptr(), slip.len(), room.as_mut_ptr(), room.len(), places, len)
    })
}

pub fn write_slip(film: Film, id: u32, a: u32, b: u32, out: &mut [u8]) -> Result<[u64; 1], Refusal> {
    let (out, out_len) = (out.as_mut_ptr(), out.len());
    ask(|places, len| {
        of_film!(film, chaldoref_write_slip, chaldoref_moov_write_slip, id, a, b, out, out_len, places, len)
    })
}

pub fn compact(film: Film, room: &mut [u8]) -> Result<[u64; 1], Refusal> {
    let (room, room_len) = (room.as_mut_ptr(), room.len());
    ask(|places, len| of_film!(film, chaldoref_compact, chaldoref_moov_compact, room, room_len, places, len))
}

pub fn fragments(film: Film) -> Result<[u64; 2], Refusal> {
    ask(|places, len| of_film!(film, chaldoref_fragments, chaldoref_moov_fragments, places, len))
}

/// Whether the atom with that header is a fragment.
pub fn is_fragment(header: &[u8]) -> bool {
    // SAFETY: a slice's own pointer and length, as the module says.
    unsafe { raw::chaldoref_is_fragment(header.as_ptr(), header.len()) == 1 }
}

pub fn movie(film: Film) -> Result<[u64; 2], Refusal> {
    ask(|places, len| of_film!(film, chaldoref_movie, chaldoref_moov_movie, places, len))
}

pub fn edits(film: Film, id: u32, room: &mut [Edit]) -> Result<[u64; 1], Refusal> {
    let room = signed(room);
    ask(|places, len| {
        of_film!(film, chaldoref_edits, chaldoref_moov_edits, id, room.as_mut_ptr(), room.len(), places, len)
    })
}

/// As many numbers has a position in a track, and a sample in the room that steps fill.
pub const STEPPER_NUMBERS: usize = 29;
pub const SAMPLE_NUMBERS: usize = 8;

/// The next samples, as many as the room takes; answers how many, and moves the position past them. It is the same of both
/// ways in: a position says where the tables are in what was lent.
pub fn steps(
    lent: &[u8],
    stepper: &mut [u64; STEPPER_NUMBERS],
    room: &mut [[i64; SAMPLE_NUMBERS]],
) -> Result<[u64; 1], Refusal> {
    let room = room.as_flattened_mut();
    let (room, room_len) = (room.as_mut_ptr(), room.len());
    let (stepper, stepper_len) = (stepper.as_mut_ptr(), stepper.len());
    // SAFETY: slices' own pointers and lengths, as the module says.
    ask(|places, len| unsafe {
        raw::chaldoref_steps(lent.as_ptr(), lent.len(), stepper, stepper_len, room, room_len, places, len)
    })
}

/// As many numbers has a track that is opened once.
pub const OPENED_NUMBERS: usize = 19;
pub type Handle = [u64; OPENED_NUMBERS];

/// A track, opened.
pub fn open(film: Film, id: u32) -> Result<Handle, Refusal> {
    ask(|handle, len| of_film!(film, chaldoref_open, chaldoref_moov_open, id, handle, len))
}

/// Asks by a handle, and what else is read after it, in the same way of both ways in: it says where the tables are in what was lent.
macro_rules! by_handle {
    ($function:ident, $lent:expr, [$($read:expr),*], $($argument:expr),*) => {
        // SAFETY: slices' own pointers and lengths, as the module says.
        ask(|places, len| unsafe {
            raw::$function($lent.as_ptr(), $lent.len(), $($read.as_ptr(), $read.len(),)* $($argument,)* places, len)
        })
    };
}

pub fn opened_sample(lent: &[u8], handle: &Handle, n: u32) -> Result<[i64; 8], Refusal> {
    by_handle!(chaldoref_opened_sample, lent, [handle], n)
}

pub fn opened_sample_at(lent: &[u8], handle: &Handle, t: u32) -> Result<[u64; 2], Refusal> {
    by_handle!(chaldoref_opened_sample_at, lent, [handle], t)
}

pub fn opened_media_time(lent: &[u8], handle: &Handle, t: u32) -> Result<[u64; 2], Refusal> {
    by_handle!(chaldoref_opened_media_time, lent, [handle], t)
}

pub fn opened_stretch(
    lent: &[u8],
    handle: &Handle,
    (a, b): (u32, u32),
    room: &mut [ByteRange],
) -> Result<[u64; 2], Refusal> {
    let room = wide(room);
    let (room, room_len) = (room.as_mut_ptr(), room.len());
    by_handle!(chaldoref_opened_stretch, lent, [handle], a, b, room, room_len)
}

/// The position before sample `n` of an opened track.
pub fn opened_step_start(lent: &[u8], handle: &Handle, n: u32) -> Result<[u64; STEPPER_NUMBERS], Refusal> {
    by_handle!(chaldoref_opened_step_start, lent, [handle], n)
}

/// From one checkpoint of an index to the next are as many samples, and each has as many numbers.
pub const CHECKPOINT_SAMPLES: usize = 64;
pub const CHECKPOINT_NUMBERS: usize = 6;

/// Fills the index of an opened track; answers how many numbers it has.
pub fn index(lent: &[u8], handle: &Handle, index: &mut [u64]) -> Result<[u64; 1], Refusal> {
    let (index, index_len) = (index.as_mut_ptr(), index.len());
    by_handle!(chaldoref_index, lent, [handle], index, index_len)
}

pub fn indexed_sample(lent: &[u8], handle: &Handle, index: &[u64], n: u32) -> Result<[i64; 8], Refusal> {
    by_handle!(chaldoref_indexed_sample, lent, [handle, index], n)
}

pub fn indexed_sample_at(lent: &[u8], handle: &Handle, index: &[u64], t: u32) -> Result<[u64; 2], Refusal> {
    by_handle!(chaldoref_indexed_sample_at, lent, [handle, index], t)
}

/// A step over the atoms at top level. The places are those of the step before, or the file's length and zeros.
pub fn top_level(header: &[u8], mut places: [u64; 6]) -> Result<[u64; 6], Refusal> {
    // SAFETY: slices' own pointers and lengths, as the module says.
    let number =
        unsafe { raw::chaldoref_top_level_step(header.as_ptr(), header.len(), places.as_mut_ptr(), places.len()) };
    answered(number).map(|()| places)
}
