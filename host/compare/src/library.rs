//! The library's functions, each called once for a question: the only place where they are called, and all that is unsafe about it.
#![allow(unsafe_code)]
use crate::lent::Lent;
use crate::question::{Question, Way};
use chaldoref::raw::*;

/// What a question is asked with: lists go to numbers, slips and a moov to bytes, and the answer's own numbers to places.
pub struct Lending {
    pub numbers: Lent<u32>,
    pub wide: Lent<u64>,
    pub bytes: Lent<u8>,
    pub places: Lent<u64>,
}

/// Asks the library: the film, by that way, or for `ReadSlip` and `ReadAnySlip` the slip. The answer is the number of the refusal, 0 for none.
pub fn ask(lent: &[u8], way: Way, question: Question, lending: &mut Lending) -> u32 {
    match way {
        Way::Whole => ask_whole(lent, question, lending),
        Way::Moov(length) => ask_moov(lent, length, question, lending),
    }
}

fn ask_whole(file: &[u8], question: Question, lending: &mut Lending) -> u32 {
    let (f, len) = (file.as_ptr(), file.len());
    let (room, room_len) = (lending.numbers.pointer(), lending.numbers.len());
    let (wide, wide_len) = (lending.wide.pointer(), lending.wide.len());
    let (out, out_len) = (lending.bytes.pointer(), lending.bytes.len());
    let (places, places_len) = (lending.places.pointer(), lending.places.len());
    // SAFETY: every pointer comes from a slice or a vector, so it is aligned, not null and valid for its length; all belong to different
    // owners, those that are written to are borrowed mutably, and i64 has the size and alignment of u64.
    unsafe {
        match question {
            Question::TrackList => chaldoref_track_list(f, len, room, room_len, places, places_len),
            Question::Sample { id, n } => chaldoref_sample(f, len, id, n, places.cast(), places_len),
            Question::SampleBytes { id, n } => chaldoref_sample_bytes(f, len, id, n, places, places_len),
            Question::SampleAt { id, t } => chaldoref_sample_at(f, len, id, t, places, places_len),
            Question::MediaTime { id, t } => chaldoref_media_time(f, len, id, t, places, places_len),
            Question::Stretch { id, a, b } => chaldoref_stretch(f, len, id, a, b, room, room_len, places, places_len),
            Question::Movie => chaldoref_movie(f, len, places, places_len),
            Question::Edits { id } => chaldoref_edits(f, len, id, wide.cast(), wide_len, places, places_len),
            Question::Profile { id } => chaldoref_profile(f, len, id, room, room_len, places, places_len),
            Question::CheckProfile { id } => chaldoref_check_profile(f, len, id, places, places_len),
            Question::CheckQuay => chaldoref_check_quay(f, len, places, places_len),
            Question::Feature { id, code } => chaldoref_feature(f, len, id, code, places, places_len),
            Question::Peak { id, code } => chaldoref_peak(f, len, id, code, places, places_len),
            Question::ReadSlip => chaldoref_read_slip(f, len, room, room_len, places, places_len),
            Question::ReadAnySlip => chaldoref_read_any_slip(f, len, wide, wide_len, places, places_len),
            Question::WriteSlip { id, a, b } => {
                chaldoref_write_slip(f, len, id, a, b, out, out_len, places, places_len)
            }
            Question::Fragments => chaldoref_fragments(f, len, places, places_len),
            Question::Compact => chaldoref_compact(f, len, out, out_len, places, places_len),
        }
    }
}

fn ask_moov(moov: &[u8], length: u64, question: Question, lending: &mut Lending) -> u32 {
    let (m, len) = (moov.as_ptr(), moov.len());
    let (room, room_len) = (lending.numbers.pointer(), lending.numbers.len());
    let (wide, wide_len) = (lending.wide.pointer(), lending.wide.len());
    let (out, out_len) = (lending.bytes.pointer(), lending.bytes.len());
    let (places, places_len) = (lending.places.pointer(), lending.places.len());
    // SAFETY: as for a whole file.
    unsafe {
        match question {
            Question::TrackList => chaldoref_moov_track_list(m, len, length, room, room_len, places, places_len),
            Question::Sample { id, n } => chaldoref_moov_sample(m, len, length, id, n, places.cast(), places_len),
            Question::SampleAt { id, t } => chaldoref_moov_sample_at(m, len, length, id, t, places, places_len),
            Question::MediaTime { id, t } => chaldoref_moov_media_time(m, len, length, id, t, places, places_len),
            Question::Stretch { id, a, b } => {
                chaldoref_moov_stretch(m, len, length, id, a, b, wide, wide_len, places, places_len)
            }
            Question::Movie => chaldoref_moov_movie(m, len, length, places, places_len),
            Question::Edits { id } => {
                chaldoref_moov_edits(m, len, length, id, wide.cast(), wide_len, places, places_len)
            }
            Question::Profile { id } => chaldoref_moov_profile(m, len, length, id, room, room_len, places, places_len),
            Question::CheckProfile { id } => chaldoref_moov_check_profile(m, len, length, id, places, places_len),
            Question::CheckQuay => chaldoref_moov_check_quay(m, len, length, places, places_len),
            Question::Feature { id, code } => chaldoref_moov_feature(m, len, length, id, code, places, places_len),
            Question::Peak { id, code } => chaldoref_moov_peak(m, len, length, id, code, places, places_len),
            Question::WriteSlip { id, a, b } => {
                chaldoref_moov_write_slip(m, len, length, id, a, b, out, out_len, places, places_len)
            }
            Question::Fragments => chaldoref_moov_fragments(m, len, length, places, places_len),
            Question::Compact => chaldoref_moov_compact(m, len, length, out, out_len, places, places_len),
            Question::SampleBytes { .. } | Question::ReadSlip | Question::ReadAnySlip => {
                unreachable!("not offered of a moov alone")
            }
        }
    }
}

/// A film added to a return.
pub fn film_return(lent: &[u8], way: Way, totals: &mut Lent<u64>) -> u32 {
    let (f, len) = (lent.as_ptr(), lent.len());
    let (totals, totals_len) = (totals.pointer(), totals.len());
    // SAFETY: as for a whole file.
    unsafe {
        match way {
            Way::Whole => chaldoref_film_return(f, len, totals, totals_len),
            Way::Moov(length) => chaldoref_moov_film_return(f, len, length, totals, totals_len),
        }
    }
}

/// A return joined to another.
pub fn join_returns(more: &Lent<u64>, totals: &mut Lent<u64>) -> u32 {
    // SAFETY: both are lent as long as they are said to be.
    unsafe { chaldoref_join_returns(more.elements().as_ptr(), more.len(), totals.pointer(), totals.len()) }
}

/// The position before a sample of a track.
pub fn step_start(lent: &[u8], way: Way, id: u32, n: u32, stepper: &mut Lent<u64>) -> u32 {
    let (f, len) = (lent.as_ptr(), lent.len());
    let (stepper, stepper_len) = (stepper.pointer(), stepper.len());
    // SAFETY: as for a whole file.
    unsafe {
        match way {
            Way::Whole => chaldoref_step_start(f, len, id, n, stepper, stepper_len),
            Way::Moov(length) => chaldoref_moov_step_start(f, len, length, id, n, stepper, stepper_len),
        }
    }
}

/// The next sample.
pub fn step(lent: &[u8], stepper: &mut Lent<u64>, places: &mut Lent<u64>) -> u32 {
    let (stepper, stepper_len) = (stepper.pointer(), stepper.len());
    let (places, places_len) = (places.pointer(), places.len());
    // SAFETY: as for a whole file.
    unsafe { chaldoref_step(lent.as_ptr(), lent.len(), stepper, stepper_len, places.cast(), places_len) }
}

/// The next samples.
pub fn steps(lent: &[u8], stepper: &mut Lent<u64>, room: &mut Lent<u64>, places: &mut Lent<u64>) -> u32 {
    let (stepper, stepper_len) = (stepper.pointer(), stepper.len());
    let (room, room_len) = (room.pointer(), room.len());
    let (places, places_len) = (places.pointer(), places.len());
    // SAFETY: as for a whole file.
    unsafe {
        chaldoref_steps(lent.as_ptr(), lent.len(), stepper, stepper_len, room.cast(), room_len, places, places_len)
    }
}

/// A track, opened once.
pub fn open(lent: &[u8], way: Way, id: u32, handle: &mut Lent<u64>) -> u32 {
    let (f, len) = (lent.as_ptr(), lent.len());
    let (handle, handle_len) = (handle.pointer(), handle.len());
    // SAFETY: as for a whole file.
    unsafe {
        match way {
            Way::Whole => chaldoref_open(f, len, id, handle, handle_len),
            Way::Moov(length) => chaldoref_moov_open(f, len, length, id, handle, handle_len),
        }
    }
}

/// One of the questions that a handle answers.
pub fn ask_opened(
    lent: &[u8],
    question: Question,
    handle: &mut Lent<u64>,
    room: &mut Lent<u64>,
    places: &mut Lent<u64>,
) -> u32 {
    let (f, len) = (lent.as_ptr(), lent.len());
    let (h, h_len) = (handle.pointer().cast_const(), handle.len());
    let (room, room_len) = (room.pointer(), room.len());
    let (places, places_len) = (places.pointer(), places.len());
    // SAFETY: as for a whole file.
    unsafe {
        match question {
            Question::Sample { n, .. } => chaldoref_opened_sample(f, len, h, h_len, n, places.cast(), places_len),
            Question::SampleAt { t, .. } => chaldoref_opened_sample_at(f, len, h, h_len, t, places, places_len),
            Question::MediaTime { t, .. } => chaldoref_opened_media_time(f, len, h, h_len, t, places, places_len),
            Question::Stretch { a, b, .. } => {
                chaldoref_opened_stretch(f, len, h, h_len, a, b, room, room_len, places, places_len)
            }
            _ => unreachable!("no question by a handle"),
        }
    }
}

/// The position before a sample of a track that was opened.
pub fn opened_step_start(lent: &[u8], handle: &mut Lent<u64>, n: u32, stepper: &mut Lent<u64>) -> u32 {
    let (handle, handle_len) = (handle.pointer().cast_const(), handle.len());
    let (stepper, stepper_len) = (stepper.pointer(), stepper.len());
    // SAFETY: as for a whole file.
    unsafe { chaldoref_opened_step_start(lent.as_ptr(), lent.len(), handle, handle_len, n, stepper, stepper_len) }
}

/// The index of a track that was opened.
pub fn fill_index(lent: &[u8], handle: &mut Lent<u64>, index: &mut Lent<u64>, places: &mut Lent<u64>) -> u32 {
    let (handle, handle_len) = (handle.pointer().cast_const(), handle.len());
    let (index, index_len) = (index.pointer(), index.len());
    let (places, places_len) = (places.pointer(), places.len());
    // SAFETY: as for a whole file.
    unsafe { chaldoref_index(lent.as_ptr(), lent.len(), handle, handle_len, index, index_len, places, places_len) }
}

/// One of the questions that an index answers.
pub fn ask_indexed(
    lent: &[u8],
    question: Question,
    handle: &mut Lent<u64>,
    index: &mut Lent<u64>,
    places: &mut Lent<u64>,
) -> u32 {
    let (f, len) = (lent.as_ptr(), lent.len());
    let (h, h_len) = (handle.pointer().cast_const(), handle.len());
    let (i, i_len) = (index.pointer().cast_const(), index.len());
    let (places, places_len) = (places.pointer(), places.len());
    // SAFETY: as for a whole file.
    unsafe {
        match question {
            Question::Sample { n, .. } => {
                chaldoref_indexed_sample(f, len, h, h_len, i, i_len, n, places.cast(), places_len)
            }
            Question::SampleAt { t, .. } => {
                chaldoref_indexed_sample_at(f, len, h, h_len, i, i_len, t, places, places_len)
            }
            _ => unreachable!("no question by an index"),
        }
    }
}
