/*
 * Chaldoref: a verified reader of QuickTime movie tables.
 *
 * Every function takes a movie (or a slip) in lent memory and answers one question
 * about it. The result is 0 where the question is answered, and the number of a
 * refusal otherwise. No caller has to check anything first: any bytes, any numbers
 * and any room get an answer or a refusal.
 *
 * There are two ways in. A function takes the whole file; or, as chaldoref_moov_..,
 * the moov atom alone, with its header and nothing else, and the length of its file.
 * Of a file of at most 2,147,483,647 bytes that its atoms fill, with one moov and no
 * co64, both answer the same. By the second way a file may be longer, up to 2^63 - 1
 * bytes, and have 64-bit chunk offsets (co64 in place of stco); offsets and pairs are
 * then 64-bit numbers, and the bytes of a sample are not offered.
 * chaldoref_top_level_step tells where in a file its moov is.
 *
 * A slice is a pointer and a length, counted in elements. Seven kinds are lent:
 *
 *   file, moov,  bytes that are read
 *   slip
 *   room, out    what a list or a slip is written to: an answer fills the first
 *                elements and leaves the rest; a refusal leaves all of them
 *   places       what the answer's own numbers are written to, in the order given
 *                with each function: an answer fills the first places, a refusal
 *                fills the same ones with zeros (17 all but the last, which then
 *                says where the slip goes wrong), the rest is left
 *   stepper      a position in a track, which steps read and move on
 *   handle       a track that is opened once: chaldoref_open writes it, as places, and
 *                questions read it
 *   index        checkpoints of the tables of an opened track: chaldoref_index
 *                writes it, as room, and lookups read it
 *   totals,      a film return: totals is read and written, more is read and
 *   more         joined to it
 *
 * Places fewer than a function names are refused 16 as room is, and then nothing
 * at all is written, whatever the refusal; so is a stepper or a handle of too few numbers
 * that is to be written. One that is read is refused 16 before anything else is looked at.
 * The order of refusals is: the file's (1 to 13 and 19, which is
 * judged after 11 and before 12), 14, 15 or 18, then 16; in reading a slip 17, then
 * 16. Of the file's, 11 is the slip writer's alone: every other function accepts a
 * film whose stored duration is not the total of its samples' durations.
 * docs/RULES.md has each rule in full.
 *
 * Limits. A file, or a moov that is lent alone, has at most 2,147,483,647 bytes, a movie 16 tracks, a track
 * 1,048,576 samples, 1,048,576 chunks, 256 edits, 64 sample descriptions and 64
 * data references, a profile 64 records; beyond them the file is refused 1 or 6. A slip has at most
 * 1,048,576 pairs. No function allocates memory, and the stack it needs does not
 * grow with the file: the walk of the atom tree is six levels deep.
 *
 * Threads. The functions keep no state: any number of threads may call any of them
 * at once, also on the same file, as long as no two calls are lent the same room,
 * out, places, stepper or totals, and none a handle or an index that another writes.
 *
 * What the host keeps to (the proofs assume it: docs/TRUST.md):
 *   - no pointer is NULL, also where its length is 0 (the chaldoref_lend_ functions
 *     below make such a NULL a pointer that may be lent); each is aligned for its
 *     type and valid for its length, and no length is over PTRDIFF_MAX bytes;
 *   - nothing writes to file, moov, slip, more or a handle or an index that is read during a call;
 *   - room, out, places, stepper, totals, and a handle or an index that is written, overlap neither
 *     each other nor what is read, and nothing else reads or writes them during a call.
 *     So a return that is joined to itself is lent as a copy.
 * Nothing of what is lent is kept after a call.
 *
 * What is proved are the functions that are only declared here. The static inline
 * ones at the end are plain C for convenience: words for the refusals, names for the
 * numbers of an answer, and NULL for nothing.
 */
#ifndef CHALDOREF_H
#define CHALDOREF_H

#include <stddef.h>
#include <stdint.h>

#ifdef __cplusplus
extern "C" {
#endif

/* The version of this header, and of the library that it belongs to: what a caller was compiled with. */
#define CHALDOREF_VERSION_MAJOR 0
#define CHALDOREF_VERSION_MINOR 7
#define CHALDOREF_VERSION_PATCH 0
#define CHALDOREF_VERSION "0.7.0"
#define CHALDOREF_VERSION_NUMBER UINT32_C(7000)

/* The refusals, by their numbers in documents 01 and 02. Of a file the lowest number that
   applies is given, but that 19 is judged after 11 and before 12. */
enum {
    CHALDOREF_ANSWERED = 0,
    CHALDOREF_FILE_TOO_LONG = 1,      /* longer than 2,147,483,647 bytes; with a moov alone also a length of the file above 2^63 - 1 or below the moov's */
    CHALDOREF_ATOM_SIZE = 2,          /* an atom's size is wrong, passes its parent's end, or 1 to 7 bytes remain; what is lent as a moov alone is something else */
    CHALDOREF_ATOM_COUNT = 3,         /* an atom is absent or occurs too often; of a moov alone both offset tables or neither are there */
    CHALDOREF_LEAF_VERSION = 4,       /* a leaf that is read has a version other than 0 */
    CHALDOREF_LEAF_SIZE = 5,          /* a leaf that is read, or a profile, hasn't its size */
    CHALDOREF_OVER_LIMIT = 6,         /* too many tracks, samples, chunks, edits, descriptions, references or records */
    CHALDOREF_TRACK_IDS = 7,          /* a track ID is 0 or occurs twice */
    CHALDOREF_TIME_SCALE = 8,         /* a movie or media time scale is 0 */
    CHALDOREF_TABLES = 9,             /* the sample tables contradict each other */
    CHALDOREF_TOTAL_DURATION = 10,    /* sample or edit durations total over 4,294,967,295 */
    CHALDOREF_STORED_DURATION = 11,   /* the mdhd duration is not the total of the sample durations: slip writing only */
    CHALDOREF_PAST_END = 12,          /* a chunk's offset plus the sizes of its samples passes the file's end */
    CHALDOREF_EDIT_LIST = 13,         /* an edit list is wrong */
    CHALDOREF_NO_TRACK = 14,          /* no track has that ID */
    CHALDOREF_OUTSIDE = 15,           /* the sample number, time or stretch lies outside */
    CHALDOREF_NO_ROOM = 16,           /* the lent room or places are shorter than the answer */
    CHALDOREF_MALFORMED_SLIP = 17,    /* a slip is malformed */
    CHALDOREF_NOT_COMPUTED = 18,      /* the feature cannot be computed */
    CHALDOREF_DATA_ELSEWHERE = 19,    /* a description names data elsewhere, or no such data reference */
    CHALDOREF_TOO_MANY_SCALES = 20,   /* of a film return: a thirty-third time scale would be met */
    CHALDOREF_TOTAL_TOO_GREAT = 21    /* of a film return: a total would reach 2^64 */
};

/* How many places each function fills. */
enum {
    CHALDOREF_TRACK_LIST_PLACES = 1,
    CHALDOREF_SAMPLE_PLACES = 8,
    CHALDOREF_SAMPLE_BYTES_PLACES = 2,
    CHALDOREF_SAMPLE_AT_PLACES = 2,
    CHALDOREF_MEDIA_TIME_PLACES = 2,
    CHALDOREF_STRETCH_PLACES = 2,
    CHALDOREF_PROFILE_PLACES = 1,
    CHALDOREF_CHECK_PROFILE_PLACES = 1,
    CHALDOREF_CHECK_QUAY_PLACES = 2,
    CHALDOREF_FEATURE_PLACES = 1,
    CHALDOREF_PEAK_PLACES = 2,
    CHALDOREF_READ_SLIP_PLACES = 6,
    CHALDOREF_WRITE_SLIP_PLACES = 1,
    CHALDOREF_COMPACT_PLACES = 1,
    CHALDOREF_FRAGMENTS_PLACES = 2,
    CHALDOREF_MOVIE_PLACES = 2,
    CHALDOREF_EDITS_PLACES = 1,
    CHALDOREF_TOP_LEVEL_PLACES = 6,
    CHALDOREF_STEP_PLACES = 9,
    CHALDOREF_STEPS_PLACES = 1,
    CHALDOREF_INDEX_PLACES = 1
};

/* How many numbers a track, a sample, a pair, a profile's record and an edit have in a room, and the most of each. */
enum {
    CHALDOREF_TRACK_NUMBERS = 8,
    CHALDOREF_SAMPLE_NUMBERS = 8,
    CHALDOREF_PAIR_NUMBERS = 2,
    CHALDOREF_RECORD_NUMBERS = 3,
    CHALDOREF_EDIT_NUMBERS = 3,
    CHALDOREF_MAX_TRACKS = 16,
    CHALDOREF_MAX_PAIRS = 1048576,
    CHALDOREF_MAX_RECORDS = 64,
    CHALDOREF_MAX_EDITS = 256
};

/* As many numbers has a position in a track, which the caller keeps. */
enum {
    CHALDOREF_STEPPER_NUMBERS = 29
};

/* As many numbers has a track that is opened once, which the caller keeps. */
enum {
    CHALDOREF_OPENED_NUMBERS = 19
};

/* An index has as many numbers for each so many samples begun: a checkpoint of each of three tables. */
enum {
    CHALDOREF_CHECKPOINT_SAMPLES = 64,
    CHALDOREF_CHECKPOINT_NUMBERS = 6
};

/* As many numbers has a film return, which the caller keeps, and as many time scales it holds at most. */
enum {
    CHALDOREF_FILM_RETURN_NUMBERS = 83,
    CHALDOREF_MAX_SCALES = 32
};

/* As many bytes of an atom's header are read at most. */
enum {
    CHALDOREF_HEADER_BYTES = 16
};

/* The most bytes that a slip has before its pairs; and for each pair, of a whole file and of a moov alone. */
enum {
    CHALDOREF_SLIP_HEAD_BYTES = 24,
    CHALDOREF_SLIP_PAIR_BYTES = 10,
    CHALDOREF_SLIP_WIDE_PAIR_BYTES = 18
};

/*
 * The tracks of a movie, in file order. Refusals: the file's but 11; 16.
 * room: for each track ID, subtype (four characters as a big-endian number), media
 *       time scale, total of the sample durations, number of samples, of chunks, of
 *       edits, and the duration that mdhd stores, which may be another than the total;
 *       CHALDOREF_TRACK_NUMBERS * CHALDOREF_MAX_TRACKS numbers are always enough.
 * places: 1: the number of tracks.
 */
uint32_t chaldoref_track_list(
    const uint8_t *file, size_t file_len,
    uint32_t *room, size_t room_len,
    uint64_t *places, size_t places_len);

/*
 * Sample n of a track, numbered from 1. Refusals: the file's but 11; 14, 15, 16.
 * places: 8: decode time, duration, composition time (it may be negative), whether
 *         the sample is a sync sample (1 or 0), sample description ID, chunk
 *         (numbered from 1), offset in the file, size.
 */
uint32_t chaldoref_sample(
    const uint8_t *file, size_t file_len,
    uint32_t id, uint32_t n,
    int64_t *places, size_t places_len);

/*
 * Where the bytes of sample n are: file + offset, as many as its length. Refusals: the file's but 11; 14, 15, 16.
 * places: 2: offset in the file, length.
 */
uint32_t chaldoref_sample_bytes(
    const uint8_t *file, size_t file_len,
    uint32_t id, uint32_t n,
    uint64_t *places, size_t places_len);

/*
 * Stepping through a track, from any of its samples to the last one. The film is judged once, by
 * chaldoref_step_start; no step begins a table again:
 *
 *     uint64_t stepper[CHALDOREF_STEPPER_NUMBERS];
 *     int64_t places[CHALDOREF_STEP_PLACES];
 *     refusal = chaldoref_step_start(file, file_len, id, 1, stepper, CHALDOREF_STEPPER_NUMBERS);
 *     while (refusal == 0) {
 *         refusal = chaldoref_step(file, file_len, stepper, CHALDOREF_STEPPER_NUMBERS, places, CHALDOREF_STEP_PLACES);
 *         if (refusal != 0 || places[0] == 0)
 *             break;
 *         ... places[1] to places[8] are the sample ...
 *     }
 *
 * A position is CHALDOREF_STEPPER_NUMBERS numbers that the caller keeps, may copy and may step from
 * as often as wanted; what each of them is may change with the version. It holds no pointer: it
 * says where in the lent bytes the tables are. Step with the bytes that it was started with. With
 * other bytes, or from numbers of any kind, a step is safe and reads only what is lent. What it
 * answers then need not be a sample of the film, and its offset and size may lie outside of it:
 * do not read there. After as many steps as the position has samples left, or fewer, it answers
 * that there is none.
 */

/*
 * The position before sample n of a track, numbered from 1. Refusals: the file's but 11; 14, 15, 16.
 * stepper: CHALDOREF_STEPPER_NUMBERS numbers: the position; zeros with a refusal. Where they are
 *          fewer nothing is written, and the result is the refusal of the other numbers, or else 16.
 */
uint32_t chaldoref_step_start(
    const uint8_t *file, size_t file_len,
    uint32_t id, uint32_t n,
    uint64_t *stepper, size_t stepper_len);

/*
 * The next sample. lent are the bytes that the position was started with: the whole file, or the
 * moov alone. Refusal 16 only, for too few numbers or places, and then nothing is written.
 * stepper: the position, which is moved past the sample; past the last one it stays as it is.
 * places: 9: 1 and the sample's eight values in the order of chaldoref_sample; or nine zeros past
 *         the last sample.
 */
uint32_t chaldoref_step(
    const uint8_t *lent, size_t lent_len,
    uint64_t *stepper, size_t stepper_len,
    int64_t *places, size_t places_len);

/*
 * The next samples, as many as the room takes. Refusal 16 only, as for chaldoref_step; a room may
 * have any length.
 * stepper: the position, which is moved past them, and is written also where no sample is put.
 * room: for each sample CHALDOREF_SAMPLE_NUMBERS numbers, its values in the order of
 *       chaldoref_sample; room_len / CHALDOREF_SAMPLE_NUMBERS samples are the most.
 * places: 1: the number of samples: as many as the room takes, or, from a position of the same
 *         bytes, as the track has left. It is 0 too where the room takes none.
 */
uint32_t chaldoref_steps(
    const uint8_t *lent, size_t lent_len,
    uint64_t *stepper, size_t stepper_len,
    int64_t *room, size_t room_len,
    uint64_t *places, size_t places_len);

/*
 * The sample at media time t: decode time <= t < decode time + duration. Refusals: the file's but 11; 14, 15, 16.
 * places: 2: the sample's number, from 1; how many entries of stts were looked at, which is
 *         the position, from 1, of the entry that holds the sample.
 */
uint32_t chaldoref_sample_at(
    const uint8_t *file, size_t file_len,
    uint32_t id, uint32_t t,
    uint64_t *places, size_t places_len);

/*
 * Movie time t, in the movie's time scale, to media time, in the track's own. Refusals: the file's but 11; 14, 15, 16.
 * places: 2: 1 and the media time; or 0 and 0 where nothing is shown.
 */
uint32_t chaldoref_media_time(
    const uint8_t *file, size_t file_len,
    uint32_t id, uint32_t t,
    uint64_t *places, size_t places_len);

/*
 * A track opened once: the film is judged here, and not again by the questions that take the
 * handle. Refusals: the file's but 11; 14, 16.
 * handle: CHALDOREF_OPENED_NUMBERS numbers that the caller keeps; zeros with a refusal. Where they
 *         are fewer nothing is written, and the result is the refusal of the film or of the ID, or
 *         else 16. They hold no pointer: they say where in the lent bytes the tables are, and what
 *         each of them is may change with the version.
 */
uint32_t chaldoref_open(
    const uint8_t *file, size_t file_len,
    uint32_t id,
    uint64_t *handle, size_t handle_len);

/*
 * Sample n of the track that was opened, the sample at media time t, and movie time t to media
 * time: the answers and places of chaldoref_sample, chaldoref_sample_at and chaldoref_media_time.
 * Refusals: 15, 16. lent are the bytes that the track was opened with: the whole file, or the moov
 * alone. With other bytes, or with numbers of any kind, a call is safe and reads only what is lent;
 * what it answers then need not be of the film.
 */
uint32_t chaldoref_opened_sample(
    const uint8_t *lent, size_t lent_len,
    const uint64_t *handle, size_t handle_len,
    uint32_t n,
    int64_t *places, size_t places_len);

uint32_t chaldoref_opened_sample_at(
    const uint8_t *lent, size_t lent_len,
    const uint64_t *handle, size_t handle_len,
    uint32_t t,
    uint64_t *places, size_t places_len);

uint32_t chaldoref_opened_media_time(
    const uint8_t *lent, size_t lent_len,
    const uint64_t *handle, size_t handle_len,
    uint32_t t,
    uint64_t *places, size_t places_len);

/*
 * The stretch from media time a to b of the track that was opened: the answer, room and places of
 * chaldoref_moov_stretch, with pairs of 64-bit numbers also for a whole file. Refusals: 15, 16.
 */
uint32_t chaldoref_opened_stretch(
    const uint8_t *lent, size_t lent_len,
    const uint64_t *handle, size_t handle_len,
    uint32_t a, uint32_t b,
    uint64_t *room, size_t room_len,
    uint64_t *places, size_t places_len);

/*
 * The position before sample n of the track that was opened, for chaldoref_step and chaldoref_steps:
 * the numbers of chaldoref_step_start, without another judging. Refusals: 15, 16. From a position
 * that was started with other bytes, or by numbers of any kind, steps are as safe as from one of
 * another film.
 */
uint32_t chaldoref_opened_step_start(
    const uint8_t *lent, size_t lent_len,
    const uint64_t *handle, size_t handle_len,
    uint32_t n,
    uint64_t *stepper, size_t stepper_len);

/*
 * The index of a track that was opened: a lookup by it starts at the checkpoint before what is asked
 * and not at the first entry, so that it goes over at most 64 entries of each table, and over the
 * sizes of the samples before it in its chunk. Refusal 16, whatever the bytes and the handle.
 * index: as many numbers as chaldoref_index_numbers says of the track's samples, which the caller
 *        keeps. As a handle they hold no pointer, and what each of them is may change with the
 *        version. A longer one is filled so far and left from there on.
 * places: 1: how many numbers of the index are filled.
 */
uint32_t chaldoref_index(
    const uint8_t *lent, size_t lent_len,
    const uint64_t *handle, size_t handle_len,
    uint64_t *index, size_t index_len,
    uint64_t *places, size_t places_len);

/*
 * Sample n of the track, and the sample at media time t, by its index: the answers and places of
 * chaldoref_opened_sample and chaldoref_opened_sample_at. Refusals: 15, 16; an index that is shorter
 * than chaldoref_index fills it is refused 16 before 15 is judged. lent and handle are those that
 * the index was filled with; with others, or with an index of any numbers, a call is as safe as
 * with a handle of any numbers.
 */
uint32_t chaldoref_indexed_sample(
    const uint8_t *lent, size_t lent_len,
    const uint64_t *handle, size_t handle_len,
    const uint64_t *index, size_t index_len,
    uint32_t n,
    int64_t *places, size_t places_len);

uint32_t chaldoref_indexed_sample_at(
    const uint8_t *lent, size_t lent_len,
    const uint64_t *handle, size_t handle_len,
    const uint64_t *index, size_t index_len,
    uint32_t t,
    uint64_t *places, size_t places_len);

/*
 * The movie's own time. Refusals: the file's but 11; 16.
 * places: 2: the movie's time scale; the duration that mvhd stores, in that scale, which
 *         nothing ties to the tracks.
 */
uint32_t chaldoref_movie(
    const uint8_t *file, size_t file_len,
    uint64_t *places, size_t places_len);

/*
 * The edit list of a track. Refusals: the file's but 11; 14, 16.
 * room: for each entry its duration in movie time, the media time that it begins at or -1
 *       where it shows nothing, and its rate times 65536;
 *       CHALDOREF_EDIT_NUMBERS * CHALDOREF_MAX_EDITS numbers are always enough.
 * places: 1: the number of entries; 0 without an edit list.
 */
uint32_t chaldoref_edits(
    const uint8_t *file, size_t file_len,
    uint32_t id,
    int64_t *room, size_t room_len,
    uint64_t *places, size_t places_len);

/*
 * The stretch of a track from media time a to b (a < b <= total): all samples from
 * the one at a to the one at b - 1, as byte ranges. Refusals: the file's but 11; 14, 15, 16.
 * room: for each chunk touched, in chunk order, offset in the file and length; twice
 *       the track's number of chunks is always enough.
 * places: 2: the number of pairs, the total of bytes.
 */
uint32_t chaldoref_stretch(
    const uint8_t *file, size_t file_len,
    uint32_t id, uint32_t a, uint32_t b,
    uint32_t *room, size_t room_len,
    uint64_t *places, size_t places_len);

/*
 * The stored profile of a track, or for id 0 of the movie. Refusals: the file's but 11; 14 (not for id 0), 16.
 * room: for each record with a code other than 0 part-ID, code, value;
 *       CHALDOREF_RECORD_NUMBERS * CHALDOREF_MAX_RECORDS numbers are always enough.
 * places: 1: the number of records; 0 where there is no profile.
 */
uint32_t chaldoref_profile(
    const uint8_t *file, size_t file_len,
    uint32_t id,
    uint32_t *room, size_t room_len,
    uint64_t *places, size_t places_len);

/* The part-ID of the records that chaldoref_check_profile judges. */
enum {
    CHALDOREF_UNIVERSAL_PART = 0x20202020
};

/*
 * Whether the stored profile of a track is true. Of its records with the part-ID
 * CHALDOREF_UNIVERSAL_PART each with the code of a feature is at least the computed feature, tvsz
 * in each half, and where that is refused 18 the record is at fault; and if there is one with the
 * code vfmt in a vide track, or afmt in a soun track, the values of all such are exactly the formats
 * of the track's descriptions, in any order and as often as they like: a format that none has is
 * charged to the first of them. All other records are passed over.
 * Refusals: the file's but 11; 14, 16.
 * places: 1: 0 where it is, also without a profile; or the place, from 1, of the first record at
 *         fault among those of chaldoref_profile.
 */
uint32_t chaldoref_check_profile(
    const uint8_t *file, size_t file_len,
    uint32_t id,
    uint64_t *places, size_t places_len);

/*
 * Whether a film keeps the quay film profile. Its rules, in order: 1, one or two vide tracks and no
 * others; 2, at most one edit entry a track; 3, one description a track; 4, no ctts; 5, sample 1
 * sync, and a sync sample and those after it before the next sync one, or to the end, at most 250
 * samples (a track with no samples breaks it); 6, no zero sizes; 7, no zero durations; 8, chunks in
 * rising order of offset with none overlapping the one before; 9, vfps at most 30.0 (one that is
 * refused 18 breaks it). Refusals: the file's but 11; 16.
 * places: 2: 0 and 0 where it does; or the lowest rule that any track breaks and the ID of the
 *         first track in file order that breaks it, which is 0 for rule 1.
 */
uint32_t chaldoref_check_quay(
    const uint8_t *file, size_t file_len,
    uint64_t *places, size_t places_len);

/*
 * Adds a film to the quarter's film return: totals over many films. Two films with equal bytes are
 * both counted. A film that is refused, by a number of the file but 11, is counted under it.
 * Refusals: 20 for a thirty-third time scale, then 21 for a total that would reach 2^64, and 16 for
 * fewer numbers; with them the return is left as it is.
 * totals: CHALDOREF_FILM_RETURN_NUMBERS numbers that the caller keeps; zeros are the empty return:
 *         films accepted; films refused 1 to 13, then 19; tracks; samples; film bytes, which are the
 *         sizes of all samples; how many scales are held; CHALDOREF_MAX_SCALES scales in order of
 *         first meeting; as many totals, of each scale its tracks' film time. What stands in the
 *         last two past the scales held means nothing, and stays as it is. Of any other numbers a
 *         scale is the lowest 32 bits, which are written back; a number of scales above
 *         CHALDOREF_MAX_SCALES counts as that, and stays as it is.
 */
uint32_t chaldoref_film_return(
    const uint8_t *file, size_t file_len,
    uint64_t *totals, size_t totals_len);

/*
 * Joins a film return to another: totals is then the return of both, its own scales first, then
 * those of more that it has not, in their order. Where no film is refused 20 or 21, the return of
 * some films joined to that of the films before them is the return of all of them.
 * Refusals: 20 where that makes a thirty-third time scale, then 21 for a total that would reach
 * 2^64, and 16 for fewer numbers in either; with them totals is left as it is.
 * more:   the numbers of the return to be joined, which stay as they are.
 * totals: the numbers of the return that it is joined to. Both are as in chaldoref_film_return.
 */
uint32_t chaldoref_join_returns(
    const uint64_t *more, size_t more_len,
    uint64_t *totals, size_t totals_len);

/* The features' codes: average video and audio bit rate, greatest picture, highest frame rate,
   highest video and audio bit rate over one second. */
#define CHALDOREF_AVVB UINT32_C(0x61767662)
#define CHALDOREF_AVAB UINT32_C(0x61766162)
#define CHALDOREF_TVSZ UINT32_C(0x7476737a)
#define CHALDOREF_VFPS UINT32_C(0x76667073)
#define CHALDOREF_MVBR UINT32_C(0x6d766272)
#define CHALDOREF_MABR UINT32_C(0x6d616272)

/*
 * A feature of a track, by its four-character code. Refusals: the file's but 11; 14, 18, 16.
 * places: 1: the value: bits a second for avvb, avab, mvbr and mabr; width * 65536 +
 *         height for tvsz; frames a second * 65536 for vfps. Quotients are rounded up.
 * avvb and avab are taken over the samples that the track's edits show, each as often as it
 * is shown; without an edit list over the whole media.
 * mvbr and mabr are the greatest rate of a run of samples. There is a run for each sample:
 * the shortest that starts with it and lasts a second, if one does; where none does, the
 * whole track is the only run.
 */
uint32_t chaldoref_feature(
    const uint8_t *file, size_t file_len,
    uint32_t id, uint32_t code,
    uint64_t *places, size_t places_len);

/*
 * Where the highest bit rate over one second is, by its code, mvbr or mabr. Refused as that
 * feature is, and 18 for any other code: the file's but 11; 14, 18, 16.
 * places: 2: the number, from 1, of the first sample whose run has the greatest rate; how
 *         many samples that run has.
 */
uint32_t chaldoref_peak(
    const uint8_t *file, size_t file_len,
    uint32_t id, uint32_t code,
    uint64_t *places, size_t places_len);

/*
 * Reads a slip of form 1; one of form 2 is refused 17. Refusals 17, 16.
 * room: for each pair offset and length; as many numbers as the slip has bytes are always enough.
 * places: 6: track ID, time scale, a, b, the number of pairs, 0; and with refusal 17 five
 *         zeros and the place of the slip's first fault, counted from 0: the first byte of
 *         the first number that breaks a rule, slip_len if the slip ends early, or the
 *         first surplus byte. With 16 it is 0.
 */
uint32_t chaldoref_read_slip(
    const uint8_t *slip, size_t slip_len,
    uint32_t *room, size_t room_len,
    uint64_t *places, size_t places_len);

/*
 * Writes the slip of a track's stretch from media time a to b. Refusals: the file's, 11
 * among them, as the proof that the file was closed properly; 14, 15, 16.
 * out: the slip; CHALDOREF_SLIP_HEAD_BYTES + CHALDOREF_SLIP_PAIR_BYTES * (the track's
 *      number of chunks) bytes are always enough.
 * places: 1: the slip's length in bytes.
 */
uint32_t chaldoref_write_slip(
    const uint8_t *file, size_t file_len,
    uint32_t id, uint32_t a, uint32_t b,
    uint8_t *out, size_t out_len,
    uint64_t *places, size_t places_len);

/*
 * Writes the film's moov atom with compact tables: each stts and stsc has the fewest entries that
 * give every sample the same duration, chunk and description; everything else is copied in order.
 * The bytes freed in a track become one 'free' atom, last in its stbl. The atom keeps its length, so
 * no offset changes: written over the moov in the file (chaldoref_top_level_step finds it), it gets
 * the same answers. What differs are positions in tables (a stepper, a handle or an index of the old
 * moov does not fit the new one), the entry that chaldoref_sample_at tells, which is one of the
 * shorter stts, and the bytes of a sample that lie inside the moov.
 * Refusals: the file's but 11; 16.
 * room: the moov atom with its header. As many bytes as the moov has are needed; the file's length
 *       is always enough. It must not overlap the file.
 * places: 1: the length of the moov atom in bytes.
 */
uint32_t chaldoref_compact(
    const uint8_t *file, size_t file_len,
    uint8_t *room, size_t room_len,
    uint64_t *places, size_t places_len);

/*
 * Whether the film has fragments. Samples in fragments are not read: a film that has some is read
 * in part. Refusals: the file's but 11; 16.
 * places: 2: 1 where the moov has an mvex, which announces fragments, else 0; 1 where the file has
 *         a moof at top level, else 0.
 */
uint32_t chaldoref_fragments(
    const uint8_t *file, size_t file_len,
    uint64_t *places, size_t places_len);

/*
 * 1 where the atom with that header is a fragment, a moof, else 0. For who steps over the top level:
 * asked of each header that chaldoref_top_level_step is given, it is 1 for one of them exactly if
 * the file has a fragment.
 */
uint32_t chaldoref_is_fragment(const uint8_t *header, size_t header_len);

/*
 * One step over the atoms at a file's top level, to find its moov. Before the first one the
 * places are the file's length and five zeros. Each step is lent up to CHALDOREF_HEADER_BYTES
 * of the file at the place that is read next, fewer only at the file's end and none at its
 * very end. It is done again as long as the result and the last place are 0:
 *
 *     uint64_t places[CHALDOREF_TOP_LEVEL_PLACES] = {length};
 *     do {
 *         ... read n bytes at places[1] into header ...
 *         refusal = chaldoref_top_level_step(header, n, places, CHALDOREF_TOP_LEVEL_PLACES);
 *     } while (refusal == 0 && places[5] == 0);
 *
 * What is found is the one moov of the file. Refusals: 1 for a length above 2^63 - 1; 2; 3 for
 * no moov or more than one; 16. Length / 8 + 1 steps are the most.
 * places: 6: the file's length; where to read next; how many moovs were met (2 for more than
 *         one); the place and the size of the last of them; 1 where it is found, else 0.
 *         Where it is found the first two are 0, and after a refusal all are: keep the length.
 *         Fewer bytes than a header has, where more of the file remain, are refused 2.
 *         Of fewer places those that are missing count as 0, as in a file of length 0 where
 *         there is none; nothing is written, and the result is 1, 2 or 3 by them, or else 16.
 */
uint32_t chaldoref_top_level_step(
    const uint8_t *header, size_t header_len,
    uint64_t *places, size_t places_len);

/*
 * The second way in: the same questions, refusals and places, with the moov atom alone in
 * place of the file. length is that of the file, in bytes. Chunk offsets may be those of a
 * co64, exactly one of stco and co64 being there.
 */
uint32_t chaldoref_moov_track_list(
    const uint8_t *moov, size_t moov_len, uint64_t length,
    uint32_t *room, size_t room_len,
    uint64_t *places, size_t places_len);

uint32_t chaldoref_moov_sample(
    const uint8_t *moov, size_t moov_len, uint64_t length,
    uint32_t id, uint32_t n,
    int64_t *places, size_t places_len);

/* The steps are those of chaldoref_step and chaldoref_steps, with the moov as the bytes that are lent. */
uint32_t chaldoref_moov_step_start(
    const uint8_t *moov, size_t moov_len, uint64_t length,
    uint32_t id, uint32_t n,
    uint64_t *stepper, size_t stepper_len);

uint32_t chaldoref_moov_sample_at(
    const uint8_t *moov, size_t moov_len, uint64_t length,
    uint32_t id, uint32_t t,
    uint64_t *places, size_t places_len);

uint32_t chaldoref_moov_media_time(
    const uint8_t *moov, size_t moov_len, uint64_t length,
    uint32_t id, uint32_t t,
    uint64_t *places, size_t places_len);

/* The questions by the handle are those of a whole file, with the moov as the bytes that are lent. */
uint32_t chaldoref_moov_open(
    const uint8_t *moov, size_t moov_len, uint64_t length,
    uint32_t id,
    uint64_t *handle, size_t handle_len);

uint32_t chaldoref_moov_movie(
    const uint8_t *moov, size_t moov_len, uint64_t length,
    uint64_t *places, size_t places_len);

uint32_t chaldoref_moov_edits(
    const uint8_t *moov, size_t moov_len, uint64_t length,
    uint32_t id,
    int64_t *room, size_t room_len,
    uint64_t *places, size_t places_len);

/* The pairs are 64-bit numbers here. */
uint32_t chaldoref_moov_stretch(
    const uint8_t *moov, size_t moov_len, uint64_t length,
    uint32_t id, uint32_t a, uint32_t b,
    uint64_t *room, size_t room_len,
    uint64_t *places, size_t places_len);

uint32_t chaldoref_moov_profile(
    const uint8_t *moov, size_t moov_len, uint64_t length,
    uint32_t id,
    uint32_t *room, size_t room_len,
    uint64_t *places, size_t places_len);

uint32_t chaldoref_moov_check_profile(
    const uint8_t *moov, size_t moov_len, uint64_t length,
    uint32_t id,
    uint64_t *places, size_t places_len);

uint32_t chaldoref_moov_check_quay(
    const uint8_t *moov, size_t moov_len, uint64_t length,
    uint64_t *places, size_t places_len);

uint32_t chaldoref_moov_film_return(
    const uint8_t *moov, size_t moov_len, uint64_t length,
    uint64_t *totals, size_t totals_len);

uint32_t chaldoref_moov_feature(
    const uint8_t *moov, size_t moov_len, uint64_t length,
    uint32_t id, uint32_t code,
    uint64_t *places, size_t places_len);

uint32_t chaldoref_moov_peak(
    const uint8_t *moov, size_t moov_len, uint64_t length,
    uint32_t id, uint32_t code,
    uint64_t *places, size_t places_len);

/* The second place is 0: the top level is not known here. See chaldoref_is_fragment. */
uint32_t chaldoref_moov_fragments(
    const uint8_t *moov, size_t moov_len, uint64_t length,
    uint64_t *places, size_t places_len);

/* room: moov_len bytes are what it needs. */
uint32_t chaldoref_moov_compact(
    const uint8_t *moov, size_t moov_len, uint64_t length,
    uint8_t *room, size_t room_len,
    uint64_t *places, size_t places_len);

/*
 * The slip has form 2 where one of its numbers is 2^32 or more, and else form 1.
 * out: CHALDOREF_SLIP_HEAD_BYTES + CHALDOREF_SLIP_WIDE_PAIR_BYTES * (the track's number of
 *      chunks) bytes are always enough.
 */
uint32_t chaldoref_moov_write_slip(
    const uint8_t *moov, size_t moov_len, uint64_t length,
    uint32_t id, uint32_t a, uint32_t b,
    uint8_t *out, size_t out_len,
    uint64_t *places, size_t places_len);

/*
 * Reads a slip of form 1 or 2. One of form 1 is read as chaldoref_read_slip reads it; the
 * numbers of one of form 2 are below 2^64, and one of them is 2^32 or more: without one it
 * is malformed at place 0, if nothing else is wrong. Refusals 17, 16.
 * room and places: as for chaldoref_read_slip, with numbers of 64 bits in the room.
 */
uint32_t chaldoref_read_any_slip(
    const uint8_t *slip, size_t slip_len,
    uint64_t *room, size_t room_len,
    uint64_t *places, size_t places_len);

/*
 * The version of the library that is linked: major * 1,000,000 + minor * 1,000 + patch. It is
 * CHALDOREF_VERSION_NUMBER where header and library belong together.
 */
uint32_t chaldoref_version(void);

/*
 * Words for a refusal of a whole file, by its number; "answered" for 0. For a number
 * that no refusal has it says so: the result is never NULL.
 */
static inline const char *chaldoref_refusal_text(uint32_t number)
{
    static const char *const texts[] = {
        "answered",
        "the file is longer than 2,147,483,647 bytes",
        "an atom's size is wrong, passes its parent's end, or 1 to 7 bytes (under 16 for a 64-bit size) remain",
        "an atom is absent or occurs too often",
        "a read leaf has a body whose first byte is not 0",
        "a read leaf or profile hasn't its size",
        "over 16 tracks, or in one track over 1,048,576 samples or chunks, 256 edits, 64 descriptions or 64 references; in one profile over 64 records",
        "a track ID is 0 or occurs twice",
        "a movie or media time scale is 0",
        "sample tables contradict each other",
        "the sample durations, or a track's edit durations, total over 4,294,967,295",
        "the mdhd duration is not the total of the sample durations",
        "a chunk's offset plus the sizes of its samples passes the file's end",
        "an edit list is wrong",
        "no track has that ID",
        "the sample number is not in 1 to N, or the time or stretch lies outside",
        "the lent room is shorter than the answer",
        "a slip is malformed",
        "the feature cannot be computed",
        "a description names data elsewhere, or no such data reference",
        "a thirty-third time scale would be met",
        "a total would reach 2^64"
    };
    return number < sizeof texts / sizeof *texts ? texts[number] : "no refusal has this number";
}

/*
 * The same for a refusal of a moov alone, with the lengths that it was lent with: of refusal 1,
 * which has three grounds there, it says which one it is.
 */
static inline const char *chaldoref_moov_refusal_text(uint32_t number, size_t moov_len, uint64_t length)
{
    switch (number) {
    case CHALDOREF_FILE_TOO_LONG:
        if (moov_len > 2147483647u)
            return "the moov is longer than 2,147,483,647 bytes";
        if (length > (uint64_t)INT64_MAX)
            return "the length of the file is above 2^63 - 1";
        return "the length of the file is below that of its moov";
    case CHALDOREF_ATOM_SIZE:
        return "an atom's size is wrong, passes its parent's end, or 1 to 7 bytes (under 16 for a 64-bit size) remain; "
               "or the lent bytes aren't one moov atom";
    case CHALDOREF_ATOM_COUNT:
        return "an atom is absent or occurs too often; or both offset tables or neither is there";
    default:
        return chaldoref_refusal_text(number);
    }
}

/*
 * A pointer to lend where the caller's own may be NULL because its length is 0, as that of
 * an empty buffer often is:
 *
 *     chaldoref_track_list(chaldoref_lend_bytes(p), len, ...)
 *
 * The pointer itself; for NULL a pointer to memory of which nothing is read or written, the
 * length being 0. NULL with any other length stays an error of the caller.
 * There is one for bytes that are read (file, moov, slip), for room of 32-bit and of 64-bit
 * numbers and of signed ones, for out and for places; the signed room is that of
 * chaldoref_edits and chaldoref_steps, the signed places are those of chaldoref_sample and
 * chaldoref_step; a stepper is lent as places are, an index that is written as room of 64-bit numbers.
 */
static inline const uint8_t *chaldoref_lend_bytes(const uint8_t *bytes)
{
    static const uint8_t nothing = 0;
    return bytes != NULL ? bytes : &nothing;
}

static inline uint32_t *chaldoref_lend_room(uint32_t *room)
{
    static uint32_t nothing = 0;
    return room != NULL ? room : &nothing;
}

static inline uint64_t *chaldoref_lend_wide_room(uint64_t *room)
{
    static uint64_t nothing = 0;
    return room != NULL ? room : &nothing;
}

static inline int64_t *chaldoref_lend_signed_room(int64_t *room)
{
    static int64_t nothing = 0;
    return room != NULL ? room : &nothing;
}

static inline uint8_t *chaldoref_lend_out(uint8_t *out)
{
    static uint8_t nothing = 0;
    return out != NULL ? out : &nothing;
}

static inline uint64_t *chaldoref_lend_places(uint64_t *places)
{
    static uint64_t nothing = 0;
    return places != NULL ? places : &nothing;
}

static inline int64_t *chaldoref_lend_signed_places(int64_t *places)
{
    static int64_t nothing = 0;
    return places != NULL ? places : &nothing;
}

/*
 * Names for the numbers of an answer. Each function takes what the library has filled, and
 * with a refusal gives zeros as the places are. Media times count in the track's own time
 * scale, offsets from the file's first byte, samples and chunks from 1.
 */

/* A track of the track list. */
struct chaldoref_track {
    uint32_t id;
    uint32_t subtype;
    uint32_t scale;
    uint32_t total;
    uint32_t samples;
    uint32_t chunks;
    uint32_t edits;
    uint32_t stored;  /* the duration that mdhd stores */
};

/* Track i, counted from 0 and below the number of tracks, of the room of chaldoref_track_list. */
static inline struct chaldoref_track chaldoref_track_of(const uint32_t *room, size_t i)
{
    const uint32_t *numbers = room + CHALDOREF_TRACK_NUMBERS * i;
    struct chaldoref_track track;
    track.id = numbers[0];
    track.subtype = numbers[1];
    track.scale = numbers[2];
    track.total = numbers[3];
    track.samples = numbers[4];
    track.chunks = numbers[5];
    track.edits = numbers[6];
    track.stored = numbers[7];
    return track;
}

/* Some bytes of a film: as many as length from offset on. */
struct chaldoref_pair {
    uint32_t offset;
    uint32_t length;
};

/* Pair i, counted from 0 and below the number of pairs, of the room of a stretch or a slip. */
static inline struct chaldoref_pair chaldoref_pair_of(const uint32_t *room, size_t i)
{
    const uint32_t *numbers = room + CHALDOREF_PAIR_NUMBERS * i;
    struct chaldoref_pair pair;
    pair.offset = numbers[0];
    pair.length = numbers[1];
    return pair;
}

/* The same with numbers of 64 bits. */
struct chaldoref_wide_pair {
    uint64_t offset;
    uint64_t length;
};

/* Pair i of the room of chaldoref_moov_stretch, chaldoref_opened_stretch or chaldoref_read_any_slip. */
static inline struct chaldoref_wide_pair chaldoref_wide_pair_of(const uint64_t *room, size_t i)
{
    const uint64_t *numbers = room + CHALDOREF_PAIR_NUMBERS * i;
    struct chaldoref_wide_pair pair;
    pair.offset = numbers[0];
    pair.length = numbers[1];
    return pair;
}

/* For the places of chaldoref_sample_bytes. */
static inline struct chaldoref_pair chaldoref_sample_bytes_of(const uint64_t places[CHALDOREF_SAMPLE_BYTES_PLACES])
{
    struct chaldoref_pair pair;
    pair.offset = (uint32_t)places[0];
    pair.length = (uint32_t)places[1];
    return pair;
}

/* A record of a stored profile. */
struct chaldoref_record {
    uint32_t part;
    uint32_t code;
    uint32_t value;
};

/* Record i, counted from 0 and below the number of records, of the room of chaldoref_profile. */
static inline struct chaldoref_record chaldoref_record_of(const uint32_t *room, size_t i)
{
    const uint32_t *numbers = room + CHALDOREF_RECORD_NUMBERS * i;
    struct chaldoref_record record;
    record.part = numbers[0];
    record.code = numbers[1];
    record.value = numbers[2];
    return record;
}

/* A sample of a track. */
struct chaldoref_sample_info {
    uint32_t decode;
    uint32_t duration;
    int64_t composition;  /* it may be negative */
    int sync;             /* 1 for a sync sample, 0 for any other */
    uint32_t description;
    uint32_t chunk;
    uint32_t offset;
    uint32_t size;
};

/* For the places of chaldoref_sample. */
static inline struct chaldoref_sample_info chaldoref_sample_of(const int64_t places[CHALDOREF_SAMPLE_PLACES])
{
    struct chaldoref_sample_info sample;
    sample.decode = (uint32_t)places[0];
    sample.duration = (uint32_t)places[1];
    sample.composition = places[2];
    sample.sync = places[3] == 1;
    sample.description = (uint32_t)places[4];
    sample.chunk = (uint32_t)places[5];
    sample.offset = (uint32_t)places[6];
    sample.size = (uint32_t)places[7];
    return sample;
}

/* A sample of a moov alone. */
struct chaldoref_moov_sample_info {
    uint32_t decode;
    uint32_t duration;
    int64_t composition;  /* it may be negative */
    int sync;             /* 1 for a sync sample, 0 for any other */
    uint32_t description;
    uint32_t chunk;
    uint64_t offset;
    uint32_t size;
};

/* For the places of chaldoref_moov_sample. */
static inline struct chaldoref_moov_sample_info chaldoref_moov_sample_of(
    const int64_t places[CHALDOREF_SAMPLE_PLACES])
{
    struct chaldoref_moov_sample_info sample;
    sample.decode = (uint32_t)places[0];
    sample.duration = (uint32_t)places[1];
    sample.composition = places[2];
    sample.sync = places[3] == 1;
    sample.description = (uint32_t)places[4];
    sample.chunk = (uint32_t)places[5];
    sample.offset = (uint64_t)places[6];
    sample.size = (uint32_t)places[7];
    return sample;
}

/* A position in a track, to be kept by the caller. */
struct chaldoref_stepper {
    uint64_t numbers[CHALDOREF_STEPPER_NUMBERS];
};

/* The position before sample n of a track of a whole file. Refusals: those of chaldoref_step_start but 16. */
static inline uint32_t chaldoref_stepper_at(
    const uint8_t *file, size_t file_len, uint32_t id, uint32_t n, struct chaldoref_stepper *stepper)
{
    return chaldoref_step_start(file, file_len, id, n, stepper->numbers, CHALDOREF_STEPPER_NUMBERS);
}

/* The same of a moov alone. */
static inline uint32_t chaldoref_moov_stepper_at(
    const uint8_t *moov, size_t moov_len, uint64_t length, uint32_t id, uint32_t n, struct chaldoref_stepper *stepper)
{
    return chaldoref_moov_step_start(moov, moov_len, length, id, n, stepper->numbers, CHALDOREF_STEPPER_NUMBERS);
}

/*
 * 1 and the next sample; 0, and a sample of zeros, past the last one. It serves both ways in:
 *
 *     while (chaldoref_stepper_next(file, file_len, &stepper, &sample))
 *         ...
 */
static inline int chaldoref_stepper_next(
    const uint8_t *lent, size_t lent_len, struct chaldoref_stepper *stepper, struct chaldoref_moov_sample_info *sample)
{
    int64_t places[CHALDOREF_STEP_PLACES];
    chaldoref_step(lent, lent_len, stepper->numbers, CHALDOREF_STEPPER_NUMBERS, places, CHALDOREF_STEP_PLACES);
    *sample = chaldoref_moov_sample_of(places + 1);
    return places[0] == 1;
}

/*
 * The next samples, as many as the room of room_len numbers takes: how many they are, 0 past the
 * last one and where the room is too short for one. Sample i of them is chaldoref_moov_sample_of(room + CHALDOREF_SAMPLE_NUMBERS * i).
 */
static inline size_t chaldoref_stepper_fill(
    const uint8_t *lent, size_t lent_len, struct chaldoref_stepper *stepper, int64_t *room, size_t room_len)
{
    uint64_t count[CHALDOREF_STEPS_PLACES];
    chaldoref_steps(lent, lent_len, stepper->numbers, CHALDOREF_STEPPER_NUMBERS, room, room_len, count,
                    CHALDOREF_STEPS_PLACES);
    return (size_t)count[0];
}

/* The sample at a media time. */
struct chaldoref_sample_at_info {
    uint32_t sample;
    uint32_t entry;  /* the position of its entry in stts */
};

/* For the places of chaldoref_sample_at. */
static inline struct chaldoref_sample_at_info chaldoref_sample_at_of(
    const uint64_t places[CHALDOREF_SAMPLE_AT_PLACES])
{
    struct chaldoref_sample_at_info at;
    at.sample = (uint32_t)places[0];
    at.entry = (uint32_t)places[1];
    return at;
}

/* What a track shows at a movie time. */
struct chaldoref_media_time_info {
    int shown;      /* 0 where nothing is shown */
    uint32_t time;  /* the media time */
};

/* For the places of chaldoref_media_time. */
static inline struct chaldoref_media_time_info chaldoref_media_time_of(
    const uint64_t places[CHALDOREF_MEDIA_TIME_PLACES])
{
    struct chaldoref_media_time_info media;
    media.shown = places[0] == 1;
    media.time = (uint32_t)places[1];
    return media;
}

/* A track that is opened once, to be kept by the caller. */
struct chaldoref_opened {
    uint64_t numbers[CHALDOREF_OPENED_NUMBERS];
};

/* A track of a whole file, opened. Refusals: those of chaldoref_open but 16. */
static inline uint32_t chaldoref_open_track(
    const uint8_t *file, size_t file_len, uint32_t id, struct chaldoref_opened *track)
{
    return chaldoref_open(file, file_len, id, track->numbers, CHALDOREF_OPENED_NUMBERS);
}

/* The same of a moov alone. */
static inline uint32_t chaldoref_moov_open_track(
    const uint8_t *moov, size_t moov_len, uint64_t length, uint32_t id, struct chaldoref_opened *track)
{
    return chaldoref_moov_open(moov, moov_len, length, id, track->numbers, CHALDOREF_OPENED_NUMBERS);
}

/* Sample n of the track. Refusal 15. It serves both ways in, as the next two do. */
static inline uint32_t chaldoref_track_sample(const uint8_t *lent, size_t lent_len, const struct chaldoref_opened *track,
                                              uint32_t n, struct chaldoref_moov_sample_info *sample)
{
    int64_t places[CHALDOREF_SAMPLE_PLACES];
    uint32_t refusal = chaldoref_opened_sample(lent, lent_len, track->numbers, CHALDOREF_OPENED_NUMBERS, n, places,
                                               CHALDOREF_SAMPLE_PLACES);
    *sample = chaldoref_moov_sample_of(places);
    return refusal;
}

/* The sample at media time t. Refusal 15. */
static inline uint32_t chaldoref_track_sample_at(const uint8_t *lent, size_t lent_len,
                                                 const struct chaldoref_opened *track, uint32_t t,
                                                 struct chaldoref_sample_at_info *at)
{
    uint64_t places[CHALDOREF_SAMPLE_AT_PLACES];
    uint32_t refusal = chaldoref_opened_sample_at(lent, lent_len, track->numbers, CHALDOREF_OPENED_NUMBERS, t, places,
                                                  CHALDOREF_SAMPLE_AT_PLACES);
    *at = chaldoref_sample_at_of(places);
    return refusal;
}

/* The media time that the track shows at movie time t. Refusal 15. */
static inline uint32_t chaldoref_track_media_time(const uint8_t *lent, size_t lent_len,
                                                  const struct chaldoref_opened *track, uint32_t t,
                                                  struct chaldoref_media_time_info *media)
{
    uint64_t places[CHALDOREF_MEDIA_TIME_PLACES];
    uint32_t refusal = chaldoref_opened_media_time(lent, lent_len, track->numbers, CHALDOREF_OPENED_NUMBERS, t, places,
                                                   CHALDOREF_MEDIA_TIME_PLACES);
    *media = chaldoref_media_time_of(places);
    return refusal;
}

/* The position before sample n of the track. Refusal 15. */
static inline uint32_t chaldoref_track_stepper(const uint8_t *lent, size_t lent_len,
                                               const struct chaldoref_opened *track, uint32_t n,
                                               struct chaldoref_stepper *stepper)
{
    return chaldoref_opened_step_start(lent, lent_len, track->numbers, CHALDOREF_OPENED_NUMBERS, n, stepper->numbers,
                                       CHALDOREF_STEPPER_NUMBERS);
}

/* How many numbers the index of a track of so many samples has. */
static inline size_t chaldoref_index_numbers(uint32_t samples)
{
    size_t whole = samples / CHALDOREF_CHECKPOINT_SAMPLES, rest = samples % CHALDOREF_CHECKPOINT_SAMPLES != 0;
    return CHALDOREF_CHECKPOINT_NUMBERS * (whole + rest);
}

/* Fills the index of an opened track. Refusal 16 where it has fewer numbers than that. */
static inline uint32_t chaldoref_track_index(const uint8_t *lent, size_t lent_len, const struct chaldoref_opened *track,
                                             uint64_t *index, size_t index_len)
{
    uint64_t count[CHALDOREF_INDEX_PLACES];
    return chaldoref_index(lent, lent_len, track->numbers, CHALDOREF_OPENED_NUMBERS, index, index_len, count,
                           CHALDOREF_INDEX_PLACES);
}

/* Sample n of the track, by its index. Refusal 15. */
static inline uint32_t chaldoref_track_indexed_sample(const uint8_t *lent, size_t lent_len,
                                                      const struct chaldoref_opened *track, const uint64_t *index,
                                                      size_t index_len, uint32_t n,
                                                      struct chaldoref_moov_sample_info *sample)
{
    int64_t places[CHALDOREF_SAMPLE_PLACES];
    uint32_t refusal = chaldoref_indexed_sample(lent, lent_len, track->numbers, CHALDOREF_OPENED_NUMBERS, index,
                                                index_len, n, places, CHALDOREF_SAMPLE_PLACES);
    *sample = chaldoref_moov_sample_of(places);
    return refusal;
}

/* The sample at media time t, by its index. Refusal 15. */
static inline uint32_t chaldoref_track_indexed_sample_at(const uint8_t *lent, size_t lent_len,
                                                         const struct chaldoref_opened *track, const uint64_t *index,
                                                         size_t index_len, uint32_t t,
                                                         struct chaldoref_sample_at_info *at)
{
    uint64_t places[CHALDOREF_SAMPLE_AT_PLACES];
    uint32_t refusal = chaldoref_indexed_sample_at(lent, lent_len, track->numbers, CHALDOREF_OPENED_NUMBERS, index,
                                                   index_len, t, places, CHALDOREF_SAMPLE_AT_PLACES);
    *at = chaldoref_sample_at_of(places);
    return refusal;
}

/* How much of its room a stretch has filled, and its bytes. */
struct chaldoref_stretch_info {
    size_t pairs;
    uint64_t bytes;
};

/* For the places of chaldoref_stretch. */
static inline struct chaldoref_stretch_info chaldoref_stretch_of(const uint64_t places[CHALDOREF_STRETCH_PLACES])
{
    struct chaldoref_stretch_info stretch;
    stretch.pairs = (size_t)places[0];
    stretch.bytes = places[1];
    return stretch;
}

/* The stretch of an opened track from media time a to b. Refusals 15, and 16 for the room. */
static inline uint32_t chaldoref_track_stretch(const uint8_t *lent, size_t lent_len,
                                               const struct chaldoref_opened *track, uint32_t a, uint32_t b,
                                               uint64_t *room, size_t room_len, struct chaldoref_stretch_info *stretch)
{
    uint64_t places[CHALDOREF_STRETCH_PLACES];
    uint32_t refusal = chaldoref_opened_stretch(lent, lent_len, track->numbers, CHALDOREF_OPENED_NUMBERS, a, b, room,
                                                room_len, places, CHALDOREF_STRETCH_PLACES);
    *stretch = chaldoref_stretch_of(places);
    return refusal;
}

/* Writes the moov atom with compact tables into the room, and its length, 0 with a refusal, to *length. */
static inline uint32_t chaldoref_compact_into(const uint8_t *file, size_t file_len, uint8_t *room, size_t room_len,
                                              size_t *length)
{
    uint64_t places[CHALDOREF_COMPACT_PLACES];
    uint32_t refusal = chaldoref_compact(chaldoref_lend_bytes(file), file_len, chaldoref_lend_out(room), room_len, places,
                                         CHALDOREF_COMPACT_PLACES);
    *length = (size_t)places[0];
    return refusal;
}

/* The same of a moov alone, with the length of its file. */
static inline uint32_t chaldoref_moov_compact_into(const uint8_t *moov, size_t moov_len, uint64_t file_length,
                                                   uint8_t *room, size_t room_len, size_t *length)
{
    uint64_t places[CHALDOREF_COMPACT_PLACES];
    uint32_t refusal = chaldoref_moov_compact(chaldoref_lend_bytes(moov), moov_len, file_length,
                                              chaldoref_lend_out(room), room_len, places, CHALDOREF_COMPACT_PLACES);
    *length = (size_t)places[0];
    return refusal;
}

/* Whether a film has fragments, which are not read. */
struct chaldoref_fragments_info {
    /* The moov has an mvex. */
    int announced;
    /* The file has a moof at top level; false of a moov alone. */
    int present;
};

/* Whether the film has fragments; both are false with a refusal. */
static inline uint32_t chaldoref_find_fragments(const uint8_t *file, size_t file_len,
                                                struct chaldoref_fragments_info *fragments)
{
    uint64_t places[CHALDOREF_FRAGMENTS_PLACES];
    uint32_t refusal = chaldoref_fragments(chaldoref_lend_bytes(file), file_len, places, CHALDOREF_FRAGMENTS_PLACES);
    fragments->announced = places[0] == 1;
    fragments->present = places[1] == 1;
    return refusal;
}

/* The same of a moov alone, with the length of its file. */
static inline uint32_t chaldoref_moov_find_fragments(const uint8_t *moov, size_t moov_len, uint64_t file_length,
                                                     struct chaldoref_fragments_info *fragments)
{
    uint64_t places[CHALDOREF_FRAGMENTS_PLACES];
    uint32_t refusal = chaldoref_moov_fragments(chaldoref_lend_bytes(moov), moov_len, file_length, places,
                                                CHALDOREF_FRAGMENTS_PLACES);
    fragments->announced = places[0] == 1;
    fragments->present = places[1] == 1;
    return refusal;
}

/* A film return, to be kept by the caller; all zeros are the empty one. */
struct chaldoref_totals {
    uint64_t numbers[CHALDOREF_FILM_RETURN_NUMBERS];
};

/* Adds a film to a return. Refusals 20, 21. */
static inline uint32_t chaldoref_add_film(const uint8_t *file, size_t file_len, struct chaldoref_totals *totals)
{
    return chaldoref_film_return(file, file_len, totals->numbers, CHALDOREF_FILM_RETURN_NUMBERS);
}

/* The same of a moov alone. */
static inline uint32_t chaldoref_add_moov(
    const uint8_t *moov, size_t moov_len, uint64_t length, struct chaldoref_totals *totals)
{
    return chaldoref_moov_film_return(moov, moov_len, length, totals->numbers, CHALDOREF_FILM_RETURN_NUMBERS);
}

/* Joins another return to a return. Refusals 20, 21. */
static inline uint32_t chaldoref_join_totals(const struct chaldoref_totals *more, struct chaldoref_totals *totals)
{
    return chaldoref_join_returns(more->numbers, CHALDOREF_FILM_RETURN_NUMBERS, totals->numbers,
                                  CHALDOREF_FILM_RETURN_NUMBERS);
}

/* A return in words: the numbers but for those of its scales. */
struct chaldoref_totals_info {
    uint64_t accepted;
    uint64_t refused[CHALDOREF_DATA_ELSEWHERE + 1];  /* by the number of the refusal; zeros for others */
    uint64_t tracks;
    uint64_t samples;
    uint64_t bytes;
    size_t scales;
};

static inline struct chaldoref_totals_info chaldoref_totals_of(const struct chaldoref_totals *totals)
{
    struct chaldoref_totals_info all = {0, {0}, 0, 0, 0, 0};
    size_t number;
    all.accepted = totals->numbers[0];
    for (number = 1; number <= CHALDOREF_EDIT_LIST; number++)
        all.refused[number] = totals->numbers[number];
    all.refused[CHALDOREF_DATA_ELSEWHERE] = totals->numbers[14];
    all.tracks = totals->numbers[15];
    all.samples = totals->numbers[16];
    all.bytes = totals->numbers[17];
    all.scales = CHALDOREF_MAX_SCALES;
    if (totals->numbers[18] < CHALDOREF_MAX_SCALES)
        all.scales = (size_t)totals->numbers[18];
    return all;
}

/* Scale i of a return, counted from 0 and below the number of its scales, and its total. */
struct chaldoref_scale_total {
    uint32_t scale;
    uint64_t total;
};

static inline struct chaldoref_scale_total chaldoref_scale_total_of(const struct chaldoref_totals *totals, size_t i)
{
    struct chaldoref_scale_total scale;
    scale.scale = (uint32_t)totals->numbers[19 + i];
    scale.total = totals->numbers[19 + CHALDOREF_MAX_SCALES + i];
    return scale;
}

/* The run of samples that has the highest bit rate. */
struct chaldoref_peak_info {
    uint32_t first;
    uint32_t samples;
};

/* For the places of chaldoref_peak. */
static inline struct chaldoref_peak_info chaldoref_peak_of(const uint64_t places[CHALDOREF_PEAK_PLACES])
{
    struct chaldoref_peak_info peak;
    peak.first = (uint32_t)places[0];
    peak.samples = (uint32_t)places[1];
    return peak;
}

/* The movie's own time. */
struct chaldoref_movie_info {
    uint32_t scale;
    uint32_t stored;  /* the duration that mvhd stores */
};

/* For the places of chaldoref_movie. */
static inline struct chaldoref_movie_info chaldoref_movie_of(const uint64_t places[CHALDOREF_MOVIE_PLACES])
{
    struct chaldoref_movie_info movie;
    movie.scale = (uint32_t)places[0];
    movie.stored = (uint32_t)places[1];
    return movie;
}

/* An entry of an edit list. */
struct chaldoref_edit {
    uint32_t duration;  /* in movie time */
    int32_t media;      /* the media time that it begins at, -1 where it shows nothing */
    uint32_t rate;      /* times 65536 */
};

/* Entry i, counted from 0 and below the number of entries, of the room of chaldoref_edits. */
static inline struct chaldoref_edit chaldoref_edit_of(const int64_t *room, size_t i)
{
    const int64_t *numbers = room + CHALDOREF_EDIT_NUMBERS * i;
    struct chaldoref_edit edit;
    edit.duration = (uint32_t)numbers[0];
    edit.media = (int32_t)numbers[1];
    edit.rate = (uint32_t)numbers[2];
    return edit;
}

/* A slip without its pairs, or where it goes wrong. */
struct chaldoref_slip_head {
    uint32_t id;
    uint32_t scale;
    uint32_t a;
    uint32_t b;
    size_t pairs;
    size_t fault;  /* with refusal 17 the place of the first fault */
};

/* For the places of chaldoref_read_slip. */
static inline struct chaldoref_slip_head chaldoref_slip_head_of(const uint64_t places[CHALDOREF_READ_SLIP_PLACES])
{
    struct chaldoref_slip_head head;
    head.id = (uint32_t)places[0];
    head.scale = (uint32_t)places[1];
    head.a = (uint32_t)places[2];
    head.b = (uint32_t)places[3];
    head.pairs = (size_t)places[4];
    head.fault = (size_t)places[5];
    return head;
}

/* A slip of either form without its pairs, or where it goes wrong. */
struct chaldoref_any_slip_head {
    uint64_t id;
    uint64_t scale;
    uint64_t a;
    uint64_t b;
    size_t pairs;
    size_t fault;  /* with refusal 17 the place of the first fault */
};

/* For the places of chaldoref_read_any_slip. */
static inline struct chaldoref_any_slip_head chaldoref_any_slip_head_of(
    const uint64_t places[CHALDOREF_READ_SLIP_PLACES])
{
    struct chaldoref_any_slip_head head;
    head.id = places[0];
    head.scale = places[1];
    head.a = places[2];
    head.b = places[3];
    head.pairs = (size_t)places[4];
    head.fault = (size_t)places[5];
    return head;
}

#ifdef __cplusplus
}
#endif

#endif
