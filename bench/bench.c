/*
 * Times the library's questions on made films against one pass over the same moov, and libavformat's open. The
 * candidates take turns, round after round, so that noise falls on all alike; every answer is checked.
 */
#include "av.h"
#include "chaldoref.h"
#include "clock.h"
#include "films.h"
#include "pass.h"

#include <stdbool.h>
#include <stdio.h>
#include <stdlib.h>
#include <string.h>

enum { ROUNDS = 150, AV_EVERY = 15, MOST = 40, ROOM = 2 * FILM_SAMPLES, OUT = 40 * FILM_SAMPLES, AT_ONCE = 1024, LOOKUPS = 1000 };

/* What is lent to every question; it isn't cleared between them. */
static uint32_t room[ROOM];
static uint64_t wide_room[ROOM];
static uint8_t out[OUT];
static int64_t sample_room[CHALDOREF_SAMPLE_NUMBERS * AT_ONCE];
static volatile uint64_t sink;

typedef bool ask(const struct film *f, const struct track_facts *t, double *ms);

struct candidate {
    const char *name;
    ask *run;
    const struct track_facts *track;
    bool slow;
    bool per_sample; /* told in nanoseconds a sample, in a table of their own */
    int times;
    double ms[ROUNDS];
};

static bool ask_scalar(const struct film *f, const struct track_facts *t, double *ms)
{
    (void)t;
    double begin = now_ms();
    sink = scalar_pass(f->moov, f->moov_len);
    *ms = now_ms() - begin;
    return sink != 0;
}

static bool ask_vector(const struct film *f, const struct track_facts *t, double *ms)
{
    (void)t;
    double begin = now_ms();
    sink = vector_pass(f->moov, f->moov_len);
    *ms = now_ms() - begin;
    return sink == scalar_pass(f->moov, f->moov_len);
}

static bool is_line(const uint32_t *line, const struct track_facts *t)
{
    const uint32_t right[] = { t->id, t->subtype, t->scale, t->total, t->samples, t->chunks, t->edits, t->total };
    return memcmp(line, right, sizeof right) == 0;
}

static bool ask_track_list(const struct film *f, const struct track_facts *t, double *ms)
{
    (void)t;
    uint64_t tracks;
    double begin = now_ms();
    uint32_t refused = chaldoref_track_list(f->bytes, f->len, room, ROOM, &tracks, 1);
    *ms = now_ms() - begin;
    bool right = refused == 0 && tracks == (uint64_t)f->tracks;
    for (int i = 0; i < f->tracks; i++)
        right = right && is_line(room + CHALDOREF_TRACK_NUMBERS * i, &f->track[i]);
    return right;
}

static bool ask_stretch(const struct film *f, const struct track_facts *t, double *ms)
{
    uint64_t places[2], sum = 0;
    double begin = now_ms();
    uint32_t refused = chaldoref_stretch(f->bytes, f->len, t->id, 0, t->total, room, ROOM, places, 2);
    *ms = now_ms() - begin;
    for (uint32_t i = 0; i < t->chunks; i++)
        sum += room[2 * i + 1];
    return refused == 0 && places[0] == t->chunks && places[1] == t->bytes && sum == t->bytes;
}

static bool ask_sample(const struct film *f, const struct track_facts *t, double *ms)
{
    int64_t p[8];
    double begin = now_ms();
    uint32_t refused = chaldoref_sample(f->bytes, f->len, t->id, t->samples, p, 8);
    *ms = now_ms() - begin;
    return refused == 0 && p[0] == (int64_t)t->total - t->last_duration && p[1] == t->last_duration
        && p[5] == t->chunks && p[6] == t->last_begin && p[7] == t->last_size;
}

/* What was met in going through a track. */
struct passed {
    uint64_t samples, bytes, end;
};

static void pass_sample(struct passed *all, const int64_t *numbers)
{
    all->samples++;
    all->bytes += (uint64_t)numbers[7];
    all->end = (uint64_t)(numbers[0] + numbers[1]);
}

static bool is_all(const struct passed *all, const struct track_facts *t)
{
    return all->samples == t->samples && all->bytes == t->bytes && all->end == t->total;
}

/* The track from its first sample to its end, beyond the opening; each sample is looked at. */
static bool step_through(const struct film *f, const struct track_facts *t, double *ms, size_t at_once)
{
    struct chaldoref_stepper stepper;
    struct passed all = { 0, 0, 0 };
    size_t count;
    uint32_t refused = chaldoref_stepper_at(f->bytes, f->len, t->id, 1, &stepper);
    double begin = now_ms();
    while ((count = chaldoref_stepper_fill(f->bytes, f->len, &stepper, sample_room, CHALDOREF_SAMPLE_NUMBERS * at_once)) > 0)
        for (size_t i = 0; i < count; i++)
            pass_sample(&all, sample_room + CHALDOREF_SAMPLE_NUMBERS * i);
    *ms = now_ms() - begin;
    return refused == 0 && is_all(&all, t);
}

static bool ask_steps_64(const struct film *f, const struct track_facts *t, double *ms)
{
    return step_through(f, t, ms, 64);
}

static bool ask_steps_1024(const struct film *f, const struct track_facts *t, double *ms)
{
    return step_through(f, t, ms, AT_ONCE);
}

static bool ask_step(const struct film *f, const struct track_facts *t, double *ms)
{
    struct chaldoref_stepper stepper;
    struct passed all = { 0, 0, 0 };
    int64_t places[CHALDOREF_STEP_PLACES];
    uint32_t refused = chaldoref_stepper_at(f->bytes, f->len, t->id, 1, &stepper);
    double begin = now_ms();
    while (chaldoref_step(f->bytes, f->len, stepper.numbers, CHALDOREF_STEPPER_NUMBERS, places, CHALDOREF_STEP_PLACES) == 0
           && places[0] == 1)
        pass_sample(&all, places + 1);
    *ms = now_ms() - begin;
    return refused == 0 && is_all(&all, t);
}

/* The opening, and a thousand lookups by the handle, the last sample among them. */
static bool ask_thousand_samples(const struct film *f, const struct track_facts *t, double *ms)
{
    struct chaldoref_opened track;
    struct chaldoref_moov_sample_info s = { 0 };
    double begin = now_ms();
    uint32_t refused = chaldoref_open_track(f->bytes, f->len, t->id, &track);
    for (uint32_t i = 1; i <= LOOKUPS; i++)
        refused |= chaldoref_track_sample(f->bytes, f->len, &track, t->samples / LOOKUPS * i, &s);
    *ms = now_ms() - begin;
    return refused == 0 && s.chunk == t->chunks && s.offset == t->last_begin && s.size == t->last_size;
}

static bool ask_thousand_times(const struct film *f, const struct track_facts *t, double *ms)
{
    struct chaldoref_opened track;
    struct chaldoref_sample_at_info at = { 0 };
    double begin = now_ms();
    uint32_t refused = chaldoref_open_track(f->bytes, f->len, t->id, &track);
    for (uint32_t i = 1; i <= LOOKUPS; i++)
        refused |= chaldoref_track_sample_at(f->bytes, f->len, &track, (uint32_t)((uint64_t)t->total * i / LOOKUPS) - 1, &at);
    *ms = now_ms() - begin;
    return refused == 0 && at.sample == t->samples;
}

/* The same by an index, whose filling is counted in. */
static bool ask_indexed_samples(const struct film *f, const struct track_facts *t, double *ms)
{
    struct chaldoref_opened track;
    struct chaldoref_moov_sample_info s = { 0 };
    double begin = now_ms();
    uint32_t refused = chaldoref_open_track(f->bytes, f->len, t->id, &track);
    refused |= chaldoref_track_index(f->bytes, f->len, &track, wide_room, ROOM);
    for (uint32_t i = 1; i <= LOOKUPS; i++)
        refused |= chaldoref_track_indexed_sample(f->bytes, f->len, &track, wide_room, ROOM, t->samples / LOOKUPS * i, &s);
    *ms = now_ms() - begin;
    return refused == 0 && s.chunk == t->chunks && s.offset == t->last_begin && s.size == t->last_size;
}

static bool ask_indexed_times(const struct film *f, const struct track_facts *t, double *ms)
{
    struct chaldoref_opened track;
    struct chaldoref_sample_at_info at = { 0 };
    double begin = now_ms();
    uint32_t refused = chaldoref_open_track(f->bytes, f->len, t->id, &track);
    refused |= chaldoref_track_index(f->bytes, f->len, &track, wide_room, ROOM);
    for (uint32_t i = 1; i <= LOOKUPS; i++)
        refused |= chaldoref_track_indexed_sample_at(f->bytes, f->len, &track, wide_room, ROOM,
                                                     (uint32_t)((uint64_t)t->total * i / LOOKUPS) - 1, &at);
    *ms = now_ms() - begin;
    return refused == 0 && at.sample == t->samples;
}

static bool ask_sample_at(const struct film *f, const struct track_facts *t, double *ms)
{
    uint64_t places[CHALDOREF_SAMPLE_AT_PLACES];
    double begin = now_ms();
    uint32_t refused = chaldoref_sample_at(f->bytes, f->len, t->id, t->total - 1, places, CHALDOREF_SAMPLE_AT_PLACES);
    *ms = now_ms() - begin;
    return refused == 0 && places[0] == t->samples;
}

static bool ask_write_slip(const struct film *f, const struct track_facts *t, double *ms)
{
    uint64_t len, places[CHALDOREF_READ_SLIP_PLACES];
    double begin = now_ms();
    uint32_t refused = chaldoref_write_slip(f->bytes, f->len, t->id, 0, t->total, out, OUT, &len, 1);
    *ms = now_ms() - begin;
    return refused == 0 && chaldoref_read_slip(out, len, room, ROOM, places, CHALDOREF_READ_SLIP_PLACES) == 0
        && places[3] == t->total && places[4] == t->chunks;
}

/* By the moov alone: the second way in. */
static bool ask_moov_track_list(const struct film *f, const struct track_facts *t, double *ms)
{
    (void)t;
    uint64_t tracks;
    double begin = now_ms();
    uint32_t refused = chaldoref_moov_track_list(f->moov, f->moov_len, f->len, room, ROOM, &tracks, 1);
    *ms = now_ms() - begin;
    return refused == 0 && tracks == (uint64_t)f->tracks && is_line(room, &f->track[0]);
}

/* Whether the pairs in the room of 64-bit numbers are the whole track. */
static bool is_whole(struct chaldoref_stretch_info stretch, const struct track_facts *t)
{
    uint64_t sum = 0;
    for (uint32_t i = 0; i < t->chunks; i++)
        sum += chaldoref_wide_pair_of(wide_room, i).length;
    return stretch.pairs == t->chunks && stretch.bytes == t->bytes && sum == t->bytes;
}

static bool ask_moov_stretch(const struct film *f, const struct track_facts *t, double *ms)
{
    uint64_t places[2];
    double begin = now_ms();
    uint32_t refused = chaldoref_moov_stretch(f->moov, f->moov_len, f->len, t->id, 0, t->total, wide_room, ROOM, places, 2);
    *ms = now_ms() - begin;
    return refused == 0 && is_whole(chaldoref_stretch_of(places), t);
}

/* By the handle, beyond the opening. */
static bool ask_opened_stretch(const struct film *f, const struct track_facts *t, double *ms)
{
    struct chaldoref_opened track;
    struct chaldoref_stretch_info stretch;
    uint32_t refused = chaldoref_open_track(f->bytes, f->len, t->id, &track);
    double begin = now_ms();
    refused |= chaldoref_track_stretch(f->bytes, f->len, &track, 0, t->total, wide_room, ROOM, &stretch);
    *ms = now_ms() - begin;
    return refused == 0 && is_whole(stretch, t);
}

/* A position started by the handle, beyond the opening. */
static bool ask_opened_stepper(const struct film *f, const struct track_facts *t, double *ms)
{
    struct chaldoref_opened track;
    struct chaldoref_stepper stepper;
    struct chaldoref_moov_sample_info s, none;
    uint32_t refused = chaldoref_open_track(f->bytes, f->len, t->id, &track);
    double begin = now_ms();
    refused |= chaldoref_track_stepper(f->bytes, f->len, &track, t->samples, &stepper);
    *ms = now_ms() - begin;
    return refused == 0 && chaldoref_stepper_next(f->bytes, f->len, &stepper, &s) && s.chunk == t->chunks
        && s.offset == t->last_begin && s.size == t->last_size && !chaldoref_stepper_next(f->bytes, f->len, &stepper, &none);
}

/* The same verdict by both ways; of the first the time. */
static bool ask_check_quay(const struct film *f, const struct track_facts *t, double *ms)
{
    (void)t;
    uint64_t places[CHALDOREF_CHECK_QUAY_PLACES], again[CHALDOREF_CHECK_QUAY_PLACES];
    double begin = now_ms();
    uint32_t refused = chaldoref_check_quay(f->bytes, f->len, places, CHALDOREF_CHECK_QUAY_PLACES);
    *ms = now_ms() - begin;
    refused |= chaldoref_moov_check_quay(f->moov, f->moov_len, f->len, again, CHALDOREF_CHECK_QUAY_PLACES);
    return refused == 0 && places[0] <= 9 && places[0] == again[0] && places[1] == again[1];
}

static bool ask_film_return(const struct film *f, const struct track_facts *t, double *ms)
{
    (void)t;
    struct chaldoref_totals totals = { { 0 } };
    struct chaldoref_totals_info all;
    uint64_t samples = 0;
    double begin = now_ms();
    uint32_t refused = chaldoref_add_film(f->bytes, f->len, &totals);
    *ms = now_ms() - begin;
    all = chaldoref_totals_of(&totals);
    for (int i = 0; i < f->tracks; i++)
        samples += f->track[i].samples;
    return refused == 0 && all.accepted == 1 && all.tracks == (uint64_t)f->tracks && all.samples == samples;
}

/* The moov with compact tables lists the same tracks. */
static bool ask_compact(const struct film *f, const struct track_facts *t, double *ms)
{
    (void)t;
    size_t length;
    uint64_t tracks;
    double begin = now_ms();
    uint32_t refused = chaldoref_compact_into(f->bytes, f->len, out, OUT, &length);
    *ms = now_ms() - begin;
    bool right = refused == 0 && length == f->moov_len
        && chaldoref_moov_track_list(out, length, f->len, room, ROOM, &tracks, 1) == 0 && tracks == (uint64_t)f->tracks;
    for (int i = 0; i < f->tracks; i++)
        right = right && is_line(room + CHALDOREF_TRACK_NUMBERS * i, &f->track[i]);
    return right;
}

static bool ask_moov_write_slip(const struct film *f, const struct track_facts *t, double *ms)
{
    uint64_t len, places[CHALDOREF_READ_SLIP_PLACES];
    double begin = now_ms();
    uint32_t refused = chaldoref_moov_write_slip(f->moov, f->moov_len, f->len, t->id, 0, t->total, out, OUT, &len, 1);
    *ms = now_ms() - begin;
    return refused == 0 && chaldoref_read_slip(out, len, room, ROOM, places, CHALDOREF_READ_SLIP_PLACES) == 0
        && places[3] == t->total && places[4] == t->chunks;
}

/* The slip of the whole, written before, read by each reader; and one pass over its bytes. */
static size_t slip_of(const struct film *f, const struct track_facts *t)
{
    uint64_t len;
    return chaldoref_write_slip(f->bytes, f->len, t->id, 0, t->total, out, OUT, &len, 1) == 0 ? (size_t)len : 0;
}

static bool ask_slip_pass(const struct film *f, const struct track_facts *t, double *ms)
{
    size_t len = slip_of(f, t);
    double begin = now_ms();
    sink = scalar_pass(out, len / 4 * 4);
    *ms = now_ms() - begin;
    return len != 0;
}

static bool ask_read_slip(const struct film *f, const struct track_facts *t, double *ms)
{
    uint64_t places[CHALDOREF_READ_SLIP_PLACES];
    size_t len = slip_of(f, t);
    double begin = now_ms();
    uint32_t refused = chaldoref_read_slip(out, len, room, ROOM, places, CHALDOREF_READ_SLIP_PLACES);
    *ms = now_ms() - begin;
    return refused == 0 && places[4] == t->chunks;
}

static bool ask_read_any_slip(const struct film *f, const struct track_facts *t, double *ms)
{
    uint64_t places[CHALDOREF_READ_SLIP_PLACES];
    size_t len = slip_of(f, t);
    double begin = now_ms();
    uint32_t refused = chaldoref_read_any_slip(out, len, wide_room, ROOM, places, CHALDOREF_READ_SLIP_PLACES);
    *ms = now_ms() - begin;
    return refused == 0 && places[4] == t->chunks;
}

static bool ask_feature(const struct film *f, const struct track_facts *t, double *ms)
{
    uint64_t value;
    double begin = now_ms();
    uint32_t refused = chaldoref_feature(f->bytes, f->len, t->id, CHALDOREF_AVVB, &value, 1);
    *ms = now_ms() - begin;
    return refused == 0 && value == (8 * t->bytes * t->scale + t->total - 1) / t->total;
}

static bool ask_highest(const struct film *f, const struct track_facts *t, double *ms)
{
    uint64_t value;
    double begin = now_ms();
    uint32_t refused = chaldoref_feature(f->bytes, f->len, t->id, CHALDOREF_MVBR, &value, 1);
    *ms = now_ms() - begin;
    return refused == 0 && value == t->peak_rate;
}

static bool ask_peak(const struct film *f, const struct track_facts *t, double *ms)
{
    uint64_t places[2];
    double begin = now_ms();
    uint32_t refused = chaldoref_peak(f->bytes, f->len, t->id, CHALDOREF_MVBR, places, 2);
    *ms = now_ms() - begin;
    return refused == 0 && places[0] == t->peak_first && places[1] == t->peak_samples;
}

#ifdef WITH_AV
static long samples_of(const struct film *f)
{
    long samples = 0;
    for (int i = 0; i < f->tracks; i++)
        samples += f->track[i].samples;
    return samples;
}

static bool ask_open(const struct film *f, const struct track_facts *t, double *ms)
{
    (void)t;
    long entries;
    return av_read(f->bytes, f->len, false, &entries, ms) && entries == samples_of(f);
}

static bool ask_info(const struct film *f, const struct track_facts *t, double *ms)
{
    (void)t;
    long entries;
    return av_read(f->bytes, f->len, true, &entries, ms) && entries == samples_of(f);
}
#endif

static int gather(struct candidate *c, const struct film *f)
{
    int n = 0;
    c[n++] = (struct candidate){ .name = "scalar pass over the moov", .run = ask_scalar };
    c[n++] = (struct candidate){ .name = "vector pass over the moov", .run = ask_vector };
    c[n++] = (struct candidate){ .name = "track list", .run = ask_track_list };
    for (int i = 0; i < f->tracks && f->track[i].samples != 0; i++)
        c[n++] = (struct candidate){ .name = "whole stretch", .run = ask_stretch, .track = &f->track[i] };
    c[n++] = (struct candidate){ .name = "last sample", .run = ask_sample, .track = f->track };
    c[n++] = (struct candidate){ .name = "sample at the last time", .run = ask_sample_at, .track = f->track };
    c[n++] = (struct candidate){ .name = "a thousand samples, opened once", .run = ask_thousand_samples, .track = f->track, .slow = true };
    c[n++] = (struct candidate){ .name = "samples at a thousand times, opened once", .run = ask_thousand_times, .track = f->track, .slow = true };
    c[n++] = (struct candidate){ .name = "a thousand samples, indexed", .run = ask_indexed_samples, .track = f->track };
    c[n++] = (struct candidate){ .name = "samples at a thousand times, indexed", .run = ask_indexed_times, .track = f->track };
    c[n++] = (struct candidate){ .name = "whole stretch, opened once", .run = ask_opened_stretch, .track = f->track };
    c[n++] = (struct candidate){ .name = "stepper at the last sample, opened once", .run = ask_opened_stepper, .track = f->track };
    c[n++] = (struct candidate){ .name = "slip of the whole", .run = ask_write_slip, .track = f->track };
    c[n++] = (struct candidate){ .name = "track list, moov alone", .run = ask_moov_track_list, .track = f->track };
    c[n++] = (struct candidate){ .name = "whole stretch, moov alone", .run = ask_moov_stretch, .track = f->track };
    c[n++] = (struct candidate){ .name = "slip of the whole, moov alone", .run = ask_moov_write_slip, .track = f->track };
    c[n++] = (struct candidate){ .name = "scalar pass over that slip", .run = ask_slip_pass, .track = f->track };
    c[n++] = (struct candidate){ .name = "that slip read", .run = ask_read_slip, .track = f->track };
    c[n++] = (struct candidate){ .name = "that slip read, either form", .run = ask_read_any_slip, .track = f->track };
    c[n++] = (struct candidate){ .name = "feature avvb", .run = ask_feature, .track = f->track, .slow = f->track->edits != 0 };
    c[n++] = (struct candidate){ .name = "feature mvbr", .run = ask_highest, .track = f->track };
    c[n++] = (struct candidate){ .name = "peak of mvbr", .run = ask_peak, .track = f->track };
    c[n++] = (struct candidate){ .name = "quay film profile", .run = ask_check_quay };
    c[n++] = (struct candidate){ .name = "film return", .run = ask_film_return };
    c[n++] = (struct candidate){ .name = "compact", .run = ask_compact };
    c[n++] = (struct candidate){ .name = "64 at a time", .run = ask_steps_64, .track = f->track, .per_sample = true };
    c[n++] = (struct candidate){ .name = "1024 at a time", .run = ask_steps_1024, .track = f->track, .per_sample = true };
    c[n++] = (struct candidate){ .name = "one by one", .run = ask_step, .track = f->track, .per_sample = true };
#ifdef WITH_AV
    if (f->track->edits != 0)
        return n; /* its index has what the edits show */
    c[n++] = (struct candidate){ .name = "libavformat: open", .run = ask_open, .slow = true };
    c[n++] = (struct candidate){ .name = "libavformat: find stream info", .run = ask_info, .slow = true };
#endif
    return n;
}

static void run_once(struct candidate *c, const struct film *f)
{
    double ms;
    if (!c->run(f, c->track, &ms)) {
        fprintf(stderr, "bench: wrong answer: %s, %s\n", f->name, c->name);
        exit(1);
    }
    c->ms[c->times++] = ms;
}

static int ascending(const void *a, const void *b)
{
    double x = *(const double *)a, y = *(const double *)b;
    return (x > y) - (x < y);
}

/* The first round warms the caches and the lent room's pages; it isn't counted. */
static void measure(struct candidate *c, int n, const struct film *f)
{
    for (int round = 0; round <= ROUNDS; round++)
        for (int i = 0; i < n; i++) {
            if (!(c[i].slow || f->slow) || round % AV_EVERY == 0)
                run_once(&c[i], f);
            if (round == 0)
                c[i].times = 0;
        }
    for (int i = 0; i < n; i++)
        qsort(c[i].ms, (size_t)c[i].times, sizeof(double), ascending);
}

static double least_of(const struct candidate *c, int n, ask *run)
{
    for (int i = 0; i < n; i++)
        if (c[i].run == run)
            return c[i].ms[0];
    return 0;
}

/* Neither a pass nor libavformat. */
static bool is_question(const struct candidate *c)
{
    return (c->track != NULL && c->run != ask_slip_pass) || c->run == ask_track_list;
}

static void print_row(const struct candidate *c, double scalar, double vector, double open)
{
    char name[80];
    if (c->run == ask_stretch)
        snprintf(name, sizeof name, "%s, track %u", c->name, c->track->id);
    else
        snprintf(name, sizeof name, "%s", c->name);
    printf("| %s | %.3f | %.3f | %.2f | %.2f |", name, c->ms[0], c->ms[c->times / 2], c->ms[0] / scalar, c->ms[0] / vector);
    if (open > 0 && is_question(c))
        printf(" %.1f |", open / c->ms[0]);
    else if (open > 0)
        printf(" |");
    putchar('\n');
}

static void print_ns(const char *name, const struct candidate *c, long samples)
{
    double ns = 1e6 / (double)samples;
    printf("| %s | %.1f | %.1f |\n", name, ns * c->ms[0], ns * c->ms[c->times / 2]);
}

static void report(const struct candidate *c, int n, const struct film *f)
{
    double scalar = least_of(c, n, ask_scalar), vector = least_of(c, n, ask_vector), open = 0;
#ifdef WITH_AV
    open = least_of(c, n, ask_open);
#endif
    printf("\n### %s\n\n%s; moov %zu bytes, %u chunks a track.\n\n", f->name, f->tables, f->moov_len, f->track[0].chunks);
    printf("| | least ms | median ms | × scalar pass | × vector pass |%s\n", open > 0 ? " times ahead of libavformat's open |" : "");
    printf("|---|---:|---:|---:|---:|%s\n", open > 0 ? "---:|" : "");
    for (int i = 0; i < n; i++)
        if (!c[i].per_sample)
            print_row(&c[i], scalar, vector, open);
    printf("\n| stepping through track 1, beyond the opening | least ns a sample | median ns a sample |\n|---|---:|---:|\n");
    for (int i = 0; i < n; i++)
        if (c[i].per_sample)
            print_ns(c[i].name, &c[i], c[i].track->samples);
#ifdef WITH_AV
    for (int i = 0; i < n; i++)
        if (c[i].run == ask_open)
            print_ns("libavformat: open, which makes its index", &c[i], samples_of(f));
#endif
}

static void bench_film(int kind)
{
    static struct candidate c[MOST];
    struct film f = make_film(kind);
    int n = gather(c, &f);
    measure(c, n, &f);
    report(c, n, &f);
    fflush(stdout);
    free(f.bytes);
}

/* One row of a film, once, so that its instructions can be counted; or the film's name. */
static int run_row(int kind, const char *row)
{
    static struct candidate c[MOST];
    struct film f = make_film(kind);
    int n = gather(c, &f);
    bool found = strcmp(row, "name") == 0;
    if (found)
        printf("%s\n", f.name);
    for (int i = 0; i < n && !found; i++)
        if ((found = strcmp(row, c[i].name) == 0))
            run_once(&c[i], &f);
    free(f.bytes);
    return found ? 0 : 1;
}

int main(int argc, char **argv)
{
    if (argc == 3)
        return run_row(atoi(argv[1]), argv[2]);
    for (int kind = 0; kind < FILM_KINDS; kind++)
        if (argc < 2 || atoi(argv[1]) == kind)
            bench_film(kind);
    return 0;
}
