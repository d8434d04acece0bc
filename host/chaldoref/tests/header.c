/*
 * What the header has besides the proved functions, in the C that is also C++: prints it for tests/header.rs, which
 * has the same from the Rust crate. The film is a whole film W.
 *
 *     header FILM
 */
#include <chaldoref.h>

#include <inttypes.h>
#include <stdio.h>
#include <string.h>

/* Track 1 of film W, and the most that the film and its slips need. */
enum { ONE = 1, MOST = 8192 };

struct film {
    uint8_t bytes[MOST];
    size_t len;
};

static void print_words(void)
{
    uint32_t number;
    for (number = 0; number <= CHALDOREF_TOTAL_TOO_GREAT + 1; number++)
        printf("refusal %" PRIu32 ": %s\n", number, chaldoref_refusal_text(number));
    printf("refusal %" PRIu32 ": %s\n", UINT32_MAX, chaldoref_refusal_text(UINT32_MAX));
    for (number = 0; number <= CHALDOREF_TOTAL_TOO_GREAT + 1; number++)
        printf("of a moov %" PRIu32 ": %s\n", number, chaldoref_moov_refusal_text(number, 8, 7));
    printf("of a moov 1: %s\n", chaldoref_moov_refusal_text(1, 8, UINT64_C(1) << 63));
    if (SIZE_MAX > 2147483647u)
        printf("of a moov 1: %s\n", chaldoref_moov_refusal_text(1, (size_t)2147483647u + 1, 7));
    printf("version %s: %d.%d.%d, %" PRIu32 ", the library %" PRIu32 "\n", CHALDOREF_VERSION, CHALDOREF_VERSION_MAJOR,
           CHALDOREF_VERSION_MINOR, CHALDOREF_VERSION_PATCH, CHALDOREF_VERSION_NUMBER, chaldoref_version());
}

static void print_tracks(const struct film *film)
{
    uint32_t room[CHALDOREF_TRACK_NUMBERS * CHALDOREF_MAX_TRACKS];
    uint64_t count[CHALDOREF_TRACK_LIST_PLACES];
    size_t i;
    chaldoref_track_list(film->bytes, film->len, room, sizeof room / sizeof *room, count, CHALDOREF_TRACK_LIST_PLACES);
    for (i = 0; i < count[0]; i++) {
        struct chaldoref_track t = chaldoref_track_of(room, i);
        printf("track %" PRIu32 " %08" PRIx32 " %" PRIu32 " %" PRIu32 " %" PRIu32 " %" PRIu32 " %" PRIu32
               " %" PRIu32 "\n",
               t.id, t.subtype, t.scale, t.total, t.samples, t.chunks, t.edits, t.stored);
    }
}

static void print_sample(const struct film *film, uint32_t n)
{
    int64_t places[CHALDOREF_SAMPLE_PLACES];
    uint64_t range[CHALDOREF_SAMPLE_BYTES_PLACES];
    struct chaldoref_sample_info s;
    struct chaldoref_pair bytes;
    uint32_t refusal = chaldoref_sample(film->bytes, film->len, ONE, n, places, CHALDOREF_SAMPLE_PLACES);
    chaldoref_sample_bytes(film->bytes, film->len, ONE, n, range, CHALDOREF_SAMPLE_BYTES_PLACES);
    s = chaldoref_sample_of(places);
    bytes = chaldoref_sample_bytes_of(range);
    printf("sample %" PRIu32 " %" PRIu32 " %" PRIu32 " %" PRId64 " %d %" PRIu32 " %" PRIu32 " %" PRIu32 " %" PRIu32
           ", bytes %" PRIu32 " %" PRIu32 "\n",
           refusal, s.decode, s.duration, s.composition, s.sync, s.description, s.chunk, s.offset, s.size,
           bytes.offset, bytes.length);
}

static void print_step(int shown, struct chaldoref_moov_sample_info s)
{
    printf("step %d %" PRIu32 " %" PRIu32 " %" PRId64 " %d %" PRIu32 " %" PRIu32 " %" PRIu64 " %" PRIu32 "\n", shown,
           s.decode, s.duration, s.composition, s.sync, s.description, s.chunk, s.offset, s.size);
}

/* From sample n one by one, past the end too; the same samples two at once, by the moov alone, which is the film's first atom. */
static void print_steps(const struct film *film, uint32_t n)
{
    struct chaldoref_stepper stepper, copy;
    struct chaldoref_moov_sample_info sample;
    int64_t room[2 * CHALDOREF_SAMPLE_NUMBERS];
    size_t moov = (size_t)film->bytes[2] << 8 | film->bytes[3], count, i;
    int shown;
    uint32_t refused = chaldoref_stepper_at(film->bytes, film->len, ONE, 0, &stepper);
    uint32_t started = chaldoref_stepper_at(film->bytes, film->len, ONE, n, &stepper);
    printf("start %" PRIu32 " %" PRIu32 "\n", refused, started);
    do {
        shown = chaldoref_stepper_next(film->bytes, film->len, &stepper, &sample);
        print_step(shown, sample);
    } while (shown);
    chaldoref_moov_stepper_at(film->bytes, moov, film->len, ONE, n, &stepper);
    copy = stepper;
    while ((count = chaldoref_stepper_fill(film->bytes, moov, &stepper, room, sizeof room / sizeof *room)) > 0)
        for (i = 0; i < count; i++)
            print_step(2, chaldoref_moov_sample_of(room + CHALDOREF_SAMPLE_NUMBERS * i));
    /* A copy of a position stands where it stood. */
    chaldoref_stepper_next(film->bytes, moov, &copy, &sample);
    print_step(3, sample);
}

/* By the handle, of the whole film and of its moov alone. */
static void print_opened(const struct film *film, uint32_t n, uint32_t t)
{
    struct chaldoref_opened track;
    struct chaldoref_moov_sample_info sample;
    struct chaldoref_sample_at_info at;
    struct chaldoref_media_time_info media;
    struct chaldoref_stepper stepper;
    size_t moov = (size_t)film->bytes[2] << 8 | film->bytes[3], lent[2] = {film->len, moov};
    int i;
    for (i = 0; i < 2; i++) {
        uint32_t none = chaldoref_open_track(film->bytes, film->len, 7, &track);
        uint32_t opened = i == 0 ? chaldoref_open_track(film->bytes, film->len, ONE, &track)
                                 : chaldoref_moov_open_track(film->bytes, moov, film->len, ONE, &track);
        uint32_t outside = chaldoref_track_sample(film->bytes, lent[i], &track, 5, &sample);
        uint32_t answered = chaldoref_track_sample(film->bytes, lent[i], &track, n, &sample)
            + chaldoref_track_sample_at(film->bytes, lent[i], &track, t, &at)
            + chaldoref_track_media_time(film->bytes, lent[i], &track, t, &media);
        printf("opened %" PRIu32 " %" PRIu32 " %" PRIu32 " %" PRIu32 ": at %" PRIu32 " %" PRIu32 ", media %d %" PRIu32 "\n",
               none, opened, outside, answered, at.sample, at.entry, media.shown, media.time);
        print_step(4, sample);
        outside = chaldoref_track_stepper(film->bytes, lent[i], &track, 5, &stepper);
        answered = chaldoref_track_stepper(film->bytes, lent[i], &track, n, &stepper);
        printf("stepper %" PRIu32 " %" PRIu32 "\n", outside, answered);
        chaldoref_stepper_next(film->bytes, lent[i], &stepper, &sample);
        print_step(6, sample);
    }
}

/* The stretch of an opened track, and its index, by both ways; with room and index of one number less too. */
static void print_by_track(const struct film *film, const struct chaldoref_opened *track, size_t lent)
{
    uint64_t room[CHALDOREF_PAIR_NUMBERS * 2], index[CHALDOREF_CHECKPOINT_NUMBERS];
    struct chaldoref_stretch_info stretch;
    struct chaldoref_moov_sample_info sample;
    struct chaldoref_sample_at_info at;
    size_t numbers = chaldoref_index_numbers(4), i;
    uint32_t short_room = chaldoref_track_stretch(film->bytes, lent, track, 24, 73, room, 3, &stretch);
    uint32_t answered = chaldoref_track_stretch(film->bytes, lent, track, 24, 73, room, 4, &stretch);
    uint32_t short_index = chaldoref_track_index(film->bytes, lent, track, index, numbers - 1);
    uint32_t indexed = chaldoref_track_index(film->bytes, lent, track, index, numbers);
    printf("by track %" PRIu32 " %" PRIu32 " %lu %" PRIu64 ", %" PRIu32 " %" PRIu32 "\n", short_room, answered,
           (unsigned long)stretch.pairs, stretch.bytes, short_index, indexed);
    for (i = 0; i < stretch.pairs; i++) {
        struct chaldoref_wide_pair pair = chaldoref_wide_pair_of(room, i);
        printf("pair %" PRIu64 " %" PRIu64 "\n", pair.offset, pair.length);
    }
    indexed = chaldoref_track_indexed_sample(film->bytes, lent, track, index, numbers, 4, &sample);
    answered = chaldoref_track_indexed_sample_at(film->bytes, lent, track, index, numbers, 71, &at);
    printf("indexed %" PRIu32 " %" PRIu32 ": at %" PRIu32 " %" PRIu32 "\n", indexed, answered, at.sample, at.entry);
    print_step(5, sample);
}

static void print_indexed(const struct film *film)
{
    struct chaldoref_opened track;
    size_t moov = (size_t)film->bytes[2] << 8 | film->bytes[3];
    chaldoref_open_track(film->bytes, film->len, ONE, &track);
    print_by_track(film, &track, film->len);
    chaldoref_moov_open_track(film->bytes, moov, film->len, ONE, &track);
    print_by_track(film, &track, moov);
    printf("index of 0, 1, 4 and of more samples: %lu %lu %lu %d\n", (unsigned long)chaldoref_index_numbers(0),
           (unsigned long)chaldoref_index_numbers(1), (unsigned long)chaldoref_index_numbers(4),
           chaldoref_index_numbers(CHALDOREF_CHECKPOINT_SAMPLES + 1) == 2 * CHALDOREF_CHECKPOINT_NUMBERS);
}

static void print_media_time(const struct film *film, uint32_t t)
{
    uint64_t places[CHALDOREF_MEDIA_TIME_PLACES];
    struct chaldoref_media_time_info media;
    chaldoref_media_time(film->bytes, film->len, ONE, t, places, CHALDOREF_MEDIA_TIME_PLACES);
    media = chaldoref_media_time_of(places);
    printf("media time %d %" PRIu32 "\n", media.shown, media.time);
}

static void print_sample_at(const struct film *film, uint32_t t)
{
    uint64_t places[CHALDOREF_SAMPLE_AT_PLACES];
    struct chaldoref_sample_at_info at;
    chaldoref_sample_at(film->bytes, film->len, ONE, t, places, CHALDOREF_SAMPLE_AT_PLACES);
    at = chaldoref_sample_at_of(places);
    printf("sample at %" PRIu32 " %" PRIu32 "\n", at.sample, at.entry);
}

static void print_pairs(const uint32_t *room, size_t count)
{
    size_t i;
    for (i = 0; i < count; i++) {
        struct chaldoref_pair pair = chaldoref_pair_of(room, i);
        printf("pair %" PRIu32 " %" PRIu32 "\n", pair.offset, pair.length);
    }
}

static void print_stretch(const struct film *film, uint32_t a, uint32_t b)
{
    uint32_t room[CHALDOREF_PAIR_NUMBERS * 2];
    uint64_t places[CHALDOREF_STRETCH_PLACES];
    struct chaldoref_stretch_info stretch;
    chaldoref_stretch(film->bytes, film->len, ONE, a, b, room, sizeof room / sizeof *room, places,
                      CHALDOREF_STRETCH_PLACES);
    stretch = chaldoref_stretch_of(places);
    printf("stretch %lu %" PRIu64 "\n", (unsigned long)stretch.pairs, stretch.bytes);
    print_pairs(room, stretch.pairs);
}

static void print_records(const struct film *film)
{
    uint32_t room[CHALDOREF_RECORD_NUMBERS * CHALDOREF_MAX_RECORDS];
    uint64_t count[CHALDOREF_PROFILE_PLACES];
    size_t i;
    chaldoref_profile(film->bytes, film->len, ONE, room, sizeof room / sizeof *room, count, CHALDOREF_PROFILE_PLACES);
    for (i = 0; i < count[0]; i++) {
        struct chaldoref_record record = chaldoref_record_of(room, i);
        printf("record %" PRIu32 " %08" PRIx32 " %" PRIu32 "\n", record.part, record.code, record.value);
    }
}

static void print_peak(const struct film *film)
{
    uint64_t places[CHALDOREF_PEAK_PLACES];
    struct chaldoref_peak_info peak;
    chaldoref_peak(film->bytes, film->len, ONE, CHALDOREF_MVBR, places, CHALDOREF_PEAK_PLACES);
    peak = chaldoref_peak_of(places);
    printf("peak %" PRIu32 " %" PRIu32 "\n", peak.first, peak.samples);
}

/* The verdicts on the profile and on the film, and a return with the film by both ways and a file of no bytes. */
static void print_verdicts(const struct film *film)
{
    uint64_t place[CHALDOREF_CHECK_PROFILE_PLACES], rule[CHALDOREF_CHECK_QUAY_PLACES];
    struct chaldoref_totals totals = {{0}}, twice = {{0}};
    struct chaldoref_totals_info all;
    size_t moov = (size_t)film->bytes[2] << 8 | film->bytes[3], i;
    uint32_t refusal = chaldoref_check_profile(film->bytes, film->len, ONE, place, CHALDOREF_CHECK_PROFILE_PLACES)
        + chaldoref_check_quay(film->bytes, film->len, rule, CHALDOREF_CHECK_QUAY_PLACES)
        + chaldoref_add_film(film->bytes, film->len, &totals)
        + chaldoref_add_moov(film->bytes, moov, film->len, &totals)
        + chaldoref_add_film(film->bytes, 0, &totals)
        + chaldoref_join_totals(&totals, &twice)
        + chaldoref_join_totals(&totals, &twice);
    printf("verdicts %" PRIu32 ": %" PRIu64 ", %" PRIu64 " %" PRIu64 "\n", refusal, place[0], rule[0], rule[1]);
    all = chaldoref_totals_of(&totals);
    printf("totals %" PRIu64 ", refused %" PRIu64 ": %" PRIu64 " %" PRIu64 " %" PRIu64 "\n", all.accepted,
           all.refused[CHALDOREF_ATOM_COUNT], all.tracks, all.samples, all.bytes);
    for (i = 0; i < all.scales; i++) {
        struct chaldoref_scale_total scale = chaldoref_scale_total_of(&totals, i);
        printf("scale %" PRIu32 " %" PRIu64 "\n", scale.scale, scale.total);
    }
    printf("twice %" PRIu64 "\n", chaldoref_totals_of(&twice).bytes);
}

static void print_slip(const uint8_t *slip, size_t len)
{
    uint32_t room[MOST];
    uint64_t places[CHALDOREF_READ_SLIP_PLACES];
    struct chaldoref_slip_head head;
    uint32_t refusal = chaldoref_read_slip(slip, len, room, MOST, places, CHALDOREF_READ_SLIP_PLACES);
    head = chaldoref_slip_head_of(places);
    printf("slip %" PRIu32 ": %" PRIu32 " %" PRIu32 " %" PRIu32 " %" PRIu32 " %lu, fault %lu\n", refusal, head.id,
           head.scale, head.a, head.b, (unsigned long)head.pairs, (unsigned long)head.fault);
    print_pairs(room, head.pairs);
}

static void print_slips(const struct film *film, uint32_t a, uint32_t b)
{
    uint8_t slip[MOST];
    uint64_t length[CHALDOREF_WRITE_SLIP_PLACES];
    chaldoref_write_slip(film->bytes, film->len, ONE, a, b, slip, MOST, length, CHALDOREF_WRITE_SLIP_PLACES);
    print_slip(slip, (size_t)length[0]);
    print_slip(slip, (size_t)length[0] - 1);
}

/* The moov with compact tables, compacted again by itself, and NULL for nothing. */
static void print_compact(const struct film *film)
{
    static uint8_t moov[MOST], again[MOST];
    size_t length, second, none;
    uint32_t refusal = chaldoref_compact_into(film->bytes, film->len, moov, MOST, &length);
    uint32_t of_moov = chaldoref_moov_compact_into(moov, length, film->len, again, MOST, &second);
    uint32_t of_nothing = chaldoref_compact_into(NULL, 0, NULL, 0, &none);
    printf("compact %" PRIu32 " %zu, again %" PRIu32 " %zu %d, of nothing %" PRIu32 " %zu\n", refusal, length, of_moov,
           second, memcmp(moov, again, length) == 0, of_nothing, none);
}

/* Whether the film has fragments, by both ways in, and of nothing; and whether a header is a fragment's. */
static void print_fragments(const struct film *film)
{
    struct chaldoref_fragments_info whole, alone, none;
    uint32_t refusal = chaldoref_find_fragments(film->bytes, film->len, &whole);
    uint32_t of_file = chaldoref_moov_find_fragments(film->bytes, film->len, film->len, &alone);
    uint32_t of_nothing = chaldoref_find_fragments(NULL, 0, &none);
    printf("fragments %" PRIu32 " %d %d, %" PRIu32 " %d %d, %" PRIu32 " %d %d, %" PRIu32 "\n", refusal, whole.announced,
           whole.present, of_file, alone.announced, alone.present, of_nothing, none.announced, none.present,
           chaldoref_is_fragment((const uint8_t *)"\0\0\0\10moof", 8));
}

/* NULL for nothing, in each place that may have it: prints the refusals. */
static void print_nothing_lent(const struct film *film)
{
    uint64_t places[CHALDOREF_READ_SLIP_PLACES];
    uint32_t no_file = chaldoref_track_list(chaldoref_lend_bytes(NULL), 0, chaldoref_lend_room(NULL), 0, places, 1);
    uint32_t no_slip = chaldoref_read_slip(chaldoref_lend_bytes(NULL), 0, chaldoref_lend_room(NULL), 0, places, 6);
    uint32_t no_room = chaldoref_track_list(film->bytes, film->len, chaldoref_lend_room(NULL), 0, places, 1);
    uint32_t no_out = chaldoref_write_slip(film->bytes, film->len, ONE, 0, 1, chaldoref_lend_out(NULL), 0, places, 1);
    uint32_t no_places = chaldoref_sample_at(film->bytes, film->len, ONE, 0, chaldoref_lend_places(NULL), 0);
    uint32_t no_signed = chaldoref_sample(film->bytes, film->len, ONE, 1, chaldoref_lend_signed_places(NULL), 0);
    uint32_t no_stepper = chaldoref_step_start(film->bytes, film->len, ONE, 1, chaldoref_lend_places(NULL), 0);
    printf("nothing lent %" PRIu32 " %" PRIu32 " %" PRIu32 " %" PRIu32 " %" PRIu32 " %" PRIu32 " %" PRIu32 "\n", no_file,
           no_slip, no_room, no_out, no_places, no_signed, no_stepper);
}

/* What is not NULL is lent as it is. */
static void print_lent(struct film *film)
{
    uint32_t numbers = 0;
    uint64_t places = 0;
    int64_t signed_places = 0;
    printf("lent %d %d %d %d %d\n", chaldoref_lend_bytes(film->bytes) == film->bytes,
           chaldoref_lend_room(&numbers) == &numbers, chaldoref_lend_out(film->bytes) == film->bytes,
           chaldoref_lend_places(&places) == &places, chaldoref_lend_signed_places(&signed_places) == &signed_places);
}

static void print_all(struct film *film)
{
    print_words();
    print_tracks(film);
    print_sample(film, 1);
    print_sample(film, 4);
    print_sample(film, 5);
    print_steps(film, 1);
    print_steps(film, 4);
    print_opened(film, 4, 71);
    print_indexed(film);
    print_media_time(film, 0);
    print_media_time(film, 60);
    print_sample_at(film, 71);
    print_sample_at(film, 72);
    print_stretch(film, 24, 73);
    print_records(film);
    print_peak(film);
    print_verdicts(film);
    print_slips(film, 24, 73);
    print_compact(film);
    print_fragments(film);
    print_nothing_lent(film);
    print_lent(film);
}

int main(int argc, char **argv)
{
    static struct film film;
    FILE *file = argc == 2 ? fopen(argv[1], "rb") : NULL;
    if (file == NULL) {
        fprintf(stderr, "usage: header FILM\n");
        return 2;
    }
    film.len = fread(film.bytes, 1, MOST, file);
    fclose(file);
    print_all(&film);
    return 0;
}
