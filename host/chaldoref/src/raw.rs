//! The functions of include/chaldoref.h, as they are. Nothing checks these declarations against the proved source but the tests: each slice is a
//! pointer and a length in elements, and the result is 0 or the number of a refusal.
//!
//! # Safety
//!
//! Of every function: each pointer is aligned, not null (also with the length 0) and valid for its length; nothing writes to what is read during the
//! call; what is written overlaps nothing else.
extern "C" {
    pub fn chaldoref_track_list(
        file: *const u8,
        file_len: usize,
        room: *mut u32,
        room_len: usize,
        places: *mut u64,
        places_len: usize,
    ) -> u32;

    pub fn chaldoref_sample(
        file: *const u8,
        file_len: usize,
        id: u32,
        n: u32,
        places: *mut i64,
        places_len: usize,
    ) -> u32;

    pub fn chaldoref_sample_bytes(
        file: *const u8,
        file_len: usize,
        id: u32,
        n: u32,
        places: *mut u64,
        places_len: usize,
    ) -> u32;

    pub fn chaldoref_sample_at(
        file: *const u8,
        file_len: usize,
        id: u32,
        t: u32,
        places: *mut u64,
        places_len: usize,
    ) -> u32;

    pub fn chaldoref_media_time(
        file: *const u8,
        file_len: usize,
        id: u32,
        t: u32,
        places: *mut u64,
        places_len: usize,
    ) -> u32;

    pub fn chaldoref_stretch(
        file: *const u8,
        file_len: usize,
        id: u32,
        a: u32,
        b: u32,
        room: *mut u32,
        room_len: usize,
        places: *mut u64,
        places_len: usize,
    ) -> u32;

    pub fn chaldoref_profile(
        file: *const u8,
        file_len: usize,
        id: u32,
        room: *mut u32,
        room_len: usize,
        places: *mut u64,
        places_len: usize,
    ) -> u32;

    pub fn chaldoref_check_profile(
        file: *const u8,
        file_len: usize,
        id: u32,
        places: *mut u64,
        places_len: usize,
    ) -> u32;

    pub fn chaldoref_check_quay(file: *const u8, file_len: usize, places: *mut u64, places_len: usize) -> u32;

    pub fn chaldoref_film_return(file: *const u8, file_len: usize, totals: *mut u64, totals_len: usize) -> u32;

    pub fn chaldoref_join_returns(more: *const u64, more_len: usize, totals: *mut u64, totals_len: usize) -> u32;

    pub fn chaldoref_feature(
        file: *const u8,
        file_len: usize,
        id: u32,
        code: u32,
        places: *mut u64,
        places_len: usize,
    ) -> u32;

    pub fn chaldoref_peak(
        file: *const u8,
        file_len: usize,
        id: u32,
        code: u32,
        places: *mut u64,
        places_len: usize,
    ) -> u32;

    pub fn chaldoref_read_slip(
        slip: *const u8,
        slip_len: usize,
        room: *mut u32,
        room_len: usize,
        places: *mut u64,
        places_len: usize,
    ) -> u32;

    pub fn chaldoref_write_slip(
        file: *const u8,
        file_len: usize,
        id: u32,
        a: u32,
        b: u32,
        out: *mut u8,
        out_len: usize,
        places: *mut u64,
        places_len: usize,
    ) -> u32;

    pub fn chaldoref_moov_track_list(
        moov: *const u8,
        moov_len: usize,
        length: u64,
        room: *mut u32,
        room_len: usize,
        places: *mut u64,
        places_len: usize,
    ) -> u32;

    pub fn chaldoref_moov_sample(
        moov: *const u8,
        moov_len: usize,
        length: u64,
        id: u32,
        n: u32,
        places: *mut i64,
        places_len: usize,
    ) -> u32;

    pub fn chaldoref_moov_sample_at(
        moov: *const u8,
        moov_len: usize,
        length: u64,
        id: u32,
        t: u32,
        places: *mut u64,
        places_len: usize,
    ) -> u32;

    pub fn chaldoref_moov_media_time(
        moov: *const u8,
        moov_len: usize,
        length: u64,
        id: u32,
        t: u32,
        places: *mut u64,
        places_len: usize,
    ) -> u32;

    pub fn chaldoref_moov_stretch(
        moov: *const u8,
        moov_len: usize,
        length: u64,
        id: u32,
        a: u32,
        b: u32,
        room: *mut u64,
        room_len: usize,
        places: *mut u64,
        places_len: usize,
    ) -> u32;

    pub fn chaldoref_moov_profile(
        moov: *const u8,
        moov_len: usize,
        length: u64,
        id: u32,
        room: *mut u32,
        room_len: usize,
        places: *mut u64,
        places_len: usize,
    ) -> u32;

    pub fn chaldoref_moov_check_profile(
        moov: *const u8,
        moov_len: usize,
        length: u64,
        id: u32,
        places: *mut u64,
        places_len: usize,
    ) -> u32;

    pub fn chaldoref_moov_check_quay(
        moov: *const u8,
        moov_len: usize,
        length: u64,
        places: *mut u64,
        places_len: usize,
    ) -> u32;

    pub fn chaldoref_moov_film_return(
        moov: *const u8,
        moov_len: usize,
        length: u64,
        totals: *mut u64,
        totals_len: usize,
    ) -> u32;

    pub fn chaldoref_moov_feature(
        moov: *const u8,
        moov_len: usize,
        length: u64,
        id: u32,
        code: u32,
        places: *mut u64,
        places_len: usize,
    ) -> u32;

    pub fn chaldoref_moov_peak(
        moov: *const u8,
        moov_len: usize,
        length: u64,
        id: u32,
        code: u32,
        places: *mut u64,
        places_len: usize,
    ) -> u32;

    pub fn chaldoref_moov_write_slip(
        moov: *const u8,
        moov_len: usize,
        length: u64,
        id: u32,
        a: u32,
        b: u32,
        out: *mut u8,
        out_len: usize,
        places: *mut u64,
        places_len: usize,
    ) -> u32;

    pub fn chaldoref_fragments(file: *const u8, file_len: usize, places: *mut u64, places_len: usize) -> u32;

    pub fn chaldoref_moov_fragments(
        moov: *const u8,
        moov_len: usize,
        length: u64,
        places: *mut u64,
        places_len: usize,
    ) -> u32;

    pub fn chaldoref_is_fragment(header: *const u8, header_len: usize) -> u32;

    pub fn chaldoref_compact(
        file: *const u8,
        file_len: usize,
        room: *mut u8,
        room_len: usize,
        places: *mut u64,
        places_len: usize,
    ) -> u32;

    pub fn chaldoref_moov_compact(
        moov: *const u8,
        moov_len: usize,
        length: u64,
        room: *mut u8,
        room_len: usize,
        places: *mut u64,
        places_len: usize,
    ) -> u32;

    pub fn chaldoref_read_any_slip(
        slip: *const u8,
        slip_len: usize,
        room: *mut u64,
        room_len: usize,
        places: *mut u64,
        places_len: usize,
    ) -> u32;

    pub fn chaldoref_movie(file: *const u8, file_len: usize, places: *mut u64, places_len: usize) -> u32;

    pub fn chaldoref_edits(
        file: *const u8,
        file_len: usize,
        id: u32,
        room: *mut i64,
        room_len: usize,
        places: *mut u64,
        places_len: usize,
    ) -> u32;

    pub fn chaldoref_moov_movie(
        moov: *const u8,
        moov_len: usize,
        length: u64,
        places: *mut u64,
        places_len: usize,
    ) -> u32;

    pub fn chaldoref_moov_edits(
        moov: *const u8,
        moov_len: usize,
        length: u64,
        id: u32,
        room: *mut i64,
        room_len: usize,
        places: *mut u64,
        places_len: usize,
    ) -> u32;

    pub fn chaldoref_top_level_step(header: *const u8, header_len: usize, places: *mut u64, places_len: usize) -> u32;

    pub fn chaldoref_step_start(
        file: *const u8,
        file_len: usize,
        id: u32,
        n: u32,
        stepper: *mut u64,
        stepper_len: usize,
    ) -> u32;

    pub fn chaldoref_moov_step_start(
        moov: *const u8,
        moov_len: usize,
        length: u64,
        id: u32,
        n: u32,
        stepper: *mut u64,
        stepper_len: usize,
    ) -> u32;

    pub fn chaldoref_step(
        lent: *const u8,
        lent_len: usize,
        stepper: *mut u64,
        stepper_len: usize,
        places: *mut i64,
        places_len: usize,
    ) -> u32;

    pub fn chaldoref_steps(
        lent: *const u8,
        lent_len: usize,
        stepper: *mut u64,
        stepper_len: usize,
        room: *mut i64,
        room_len: usize,
        places: *mut u64,
        places_len: usize,
    ) -> u32;

    pub fn chaldoref_open(file: *const u8, file_len: usize, id: u32, handle: *mut u64, handle_len: usize) -> u32;

    pub fn chaldoref_moov_open(
        moov: *const u8,
        moov_len: usize,
        length: u64,
        id: u32,
        handle: *mut u64,
        handle_len: usize,
    ) -> u32;

    pub fn chaldoref_opened_sample(
        lent: *const u8,
        lent_len: usize,
        handle: *const u64,
        handle_len: usize,
        n: u32,
        places: *mut i64,
        places_len: usize,
    ) -> u32;

    pub fn chaldoref_opened_sample_at(
        lent: *const u8,
        lent_len: usize,
        handle: *const u64,
        handle_len: usize,
        t: u32,
        places: *mut u64,
        places_len: usize,
    ) -> u32;

    pub fn chaldoref_opened_media_time(
        lent: *const u8,
        lent_len: usize,
        handle: *const u64,
        handle_len: usize,
        t: u32,
        places: *mut u64,
        places_len: usize,
    ) -> u32;

    pub fn chaldoref_opened_stretch(
        lent: *const u8,
        lent_len: usize,
        handle: *const u64,
        handle_len: usize,
        a: u32,
        b: u32,
        room: *mut u64,
        room_len: usize,
        places: *mut u64,
        places_len: usize,
    ) -> u32;

    pub fn chaldoref_opened_step_start(
        lent: *const u8,
        lent_len: usize,
        handle: *const u64,
        handle_len: usize,
        n: u32,
        stepper: *mut u64,
        stepper_len: usize,
    ) -> u32;

    pub fn chaldoref_index(
        lent: *const u8,
        lent_len: usize,
        handle: *const u64,
        handle_len: usize,
        index: *mut u64,
        index_len: usize,
        places: *mut u64,
        places_len: usize,
    ) -> u32;

    pub fn chaldoref_indexed_sample(
        lent: *const u8,
        lent_len: usize,
        handle: *const u64,
        handle_len: usize,
        index: *const u64,
        index_len: usize,
        n: u32,
        places: *mut i64,
        places_len: usize,
    ) -> u32;

    pub fn chaldoref_indexed_sample_at(
        lent: *const u8,
        lent_len: usize,
        handle: *const u64,
        handle_len: usize,
        index: *const u64,
        index_len: usize,
        t: u32,
        places: *mut u64,
        places_len: usize,
    ) -> u32;
}
