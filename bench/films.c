#include "films.h"

#include <stdbool.h>
#include <stdio.h>
#include <stdlib.h>
#include <string.h>

enum { VIDE = 0x76696465, SOUN = 0x736f756e, MOVIE_SCALE = 60, ATOMS = 1000000 };

/* How the tables of a track are made. */
struct plan {
    uint32_t subtype, scale;
    bool durations_differ; /* an stts entry for each sample */
    bool offsets;          /* a ctts entry for each sample */
    bool syncs;            /* an stss entry for every second sample */
    uint32_t common_size;  /* 0: a size for each sample */
    uint32_t (*deal)(uint32_t chunk, uint32_t begin);
    uint32_t edits;        /* entries of an edit list that each show the whole track; 0: no list */
    uint32_t samples;
    bool wasteful;         /* an stts entry for each sample and an stsc entry for each chunk, whatever they say */
};

/* Where free atoms of 8 bytes stand, and how many in each such place. */
enum place { NOWHERE, IN_STBL, IN_LAST_TRAK, IN_EACH_MDIA, LAST_IN_MOOV };

struct filling {
    enum place place;
    uint32_t atoms;
};

struct writer {
    uint8_t *bytes;
    size_t len, room;
};

static void put(struct writer *w, const void *from, size_t n)
{
    if (w->room - w->len < n) {
        w->room = 2 * (w->room + n);
        w->bytes = realloc(w->bytes, w->room);
        if (w->bytes == NULL) {
            fputs("films: no memory\n", stderr);
            exit(1);
        }
    }
    memcpy(w->bytes + w->len, from, n);
    w->len += n;
}

static void poke32(uint8_t *at, uint32_t n)
{
    for (int i = 0; i < 4; i++)
        at[i] = (uint8_t)(n >> (24 - 8 * i));
}

static void put32(struct writer *w, uint32_t n)
{
    uint8_t four[4];
    poke32(four, n);
    put(w, four, 4);
}

static void zeros(struct writer *w, size_t n)
{
    static const uint8_t none[4096];
    for (; n > sizeof none; n -= sizeof none)
        put(w, none, sizeof none);
    put(w, none, n);
}

/* An atom is opened with its kind and closed with its size. */
static size_t open_atom(struct writer *w, const char *kind)
{
    size_t at = w->len;
    put32(w, 0);
    put(w, kind, 4);
    return at;
}

static void close_atom(struct writer *w, size_t at)
{
    poke32(w->bytes + at, (uint32_t)(w->len - at));
}

/* A table with its number of entries still to be told. */
static size_t open_table(struct writer *w, const char *kind)
{
    size_t at = open_atom(w, kind);
    zeros(w, 8);
    return at;
}

static void close_table(struct writer *w, size_t at, uint32_t entries)
{
    poke32(w->bytes + at + 12, entries);
    close_atom(w, at);
}

/* Sizes of 1 to 3 bytes keep the mdat small; only the tables are measured. */
static uint32_t size_of(const struct plan *p, uint32_t sample)
{
    return p->common_size != 0 ? p->common_size : 1 + sample % 3;
}

static uint32_t duration_of(const struct plan *p, uint32_t sample)
{
    return p->durations_differ ? 1000 + sample % 7 : 1001;
}

static uint32_t least(uint32_t a, uint32_t b)
{
    return a < b ? a : b;
}

static uint32_t dealt(const struct plan *p, uint32_t chunk, uint32_t begin)
{
    return least(p->deal(chunk, begin), p->samples - begin);
}

static void put_stts(struct writer *w, const struct plan *p, struct track_facts *f)
{
    size_t at = open_table(w, "stts");
    uint32_t entries = p->durations_differ || p->wasteful || p->samples == 0 ? p->samples : 1;
    for (uint32_t i = 0; i < entries; i++) {
        put32(w, p->samples / entries);
        put32(w, duration_of(p, i));
        f->total += p->samples / entries * duration_of(p, i);
    }
    f->last_duration = duration_of(p, p->samples - 1);
    close_table(w, at, entries);
}

static void put_ctts(struct writer *w)
{
    size_t at = open_table(w, "ctts");
    for (uint32_t i = 0; i < FILM_SAMPLES; i++) {
        put32(w, 1);
        put32(w, i % 5 * 1000);
    }
    close_table(w, at, FILM_SAMPLES);
}

static void put_stss(struct writer *w)
{
    size_t at = open_table(w, "stss");
    for (uint32_t i = 0; i < FILM_SAMPLES / 2; i++)
        put32(w, 1 + 2 * i);
    close_table(w, at, FILM_SAMPLES / 2);
}

static void put_stsz(struct writer *w, const struct plan *p, struct track_facts *f)
{
    size_t at = open_atom(w, "stsz");
    put32(w, 0);
    put32(w, p->common_size);
    put32(w, p->samples);
    for (uint32_t i = 0; i < p->samples; i++) {
        if (p->common_size == 0)
            put32(w, size_of(p, i));
        f->bytes += size_of(p, i);
    }
    f->last_size = size_of(p, p->samples - 1);
    close_atom(w, at);
}

static void put_stsc(struct writer *w, const struct plan *p, struct track_facts *f)
{
    size_t at = open_table(w, "stsc");
    uint32_t entries = 0, before = 0, begin = 0, chunk = 0;
    for (; begin < p->samples; chunk++) {
        uint32_t per = dealt(p, chunk, begin);
        if (per != before || p->wasteful) {
            put32(w, chunk + 1);
            put32(w, per);
            put32(w, 1);
            entries++;
        }
        before = per;
        begin += per;
    }
    f->chunks = chunk;
    close_table(w, at, entries);
}

/* The chunks follow one another from `offset` on. */
static void put_stco(struct writer *w, const struct plan *p, struct track_facts *f, uint32_t offset)
{
    size_t at = open_table(w, "stco");
    uint32_t begin = 0, chunk = 0;
    for (; begin < p->samples; chunk++) {
        uint32_t end = begin + dealt(p, chunk, begin);
        put32(w, offset);
        for (; begin < end; begin++) {
            f->last_begin = offset;
            offset += size_of(p, begin);
        }
    }
    close_table(w, at, chunk);
}

/* One description, of a codec that libavformat need not decode to know the stream. */
static void put_stsd(struct writer *w, const struct plan *p)
{
    size_t at = open_table(w, "stsd");
    size_t one = open_atom(w, p->subtype == VIDE ? "raw " : "sowt");
    zeros(w, 6);
    put(w, "\0\1", 2);
    if (p->subtype == VIDE) {
        zeros(w, 16);
        put(w, "\0\20\0\20\0\110\0\0\0\110\0\0\0\0\0\0\0\1", 18);
        zeros(w, 32);
        put(w, "\0\30\377\377", 4);
    } else {
        zeros(w, 8);
        put(w, "\0\1\0\20\0\0\0\0\273\200\0\0", 12);
    }
    close_atom(w, one);
    close_table(w, at, 1);
}

/* The free atoms of a place, where it is that one. */
static void fill(struct writer *w, const struct filling *free, enum place place)
{
    for (uint32_t i = 0; free->place == place && i < free->atoms; i++)
        close_atom(w, open_atom(w, "free"));
}

static void put_stbl(struct writer *w, const struct plan *p, struct track_facts *f, uint32_t offset, const struct filling *free)
{
    size_t at = open_atom(w, "stbl");
    fill(w, free, IN_STBL);
    put_stsd(w, p);
    put_stts(w, p, f);
    if (p->offsets)
        put_ctts(w);
    if (p->syncs)
        put_stss(w);
    put_stsc(w, p, f);
    put_stsz(w, p, f);
    put_stco(w, p, f, offset);
    close_atom(w, at);
}

/* Where the bytes are: in this file, which the lowest flag bit of the one data reference says. */
static void put_dinf(struct writer *w)
{
    size_t dinf = open_atom(w, "dinf");
    size_t dref = open_table(w, "dref");
    size_t one = open_atom(w, "alis");
    put32(w, 1);
    close_atom(w, one);
    close_table(w, dref, 1);
    close_atom(w, dinf);
}

static void put_mdia(struct writer *w, const struct plan *p, struct track_facts *f, uint32_t offset, const struct filling *free)
{
    size_t mdia = open_atom(w, "mdia");
    fill(w, free, IN_EACH_MDIA);
    size_t mdhd = open_atom(w, "mdhd");
    zeros(w, 24);
    close_atom(w, mdhd);
    size_t hdlr = open_atom(w, "hdlr");
    zeros(w, 4);
    put(w, "mhlr", 4);
    put32(w, p->subtype);
    zeros(w, 13);
    close_atom(w, hdlr);
    size_t minf = open_atom(w, "minf");
    put_dinf(w);
    put_stbl(w, p, f, offset, free);
    close_atom(w, minf);
    close_atom(w, mdia);
    poke32(w->bytes + mdhd + 20, p->scale);
    poke32(w->bytes + mdhd + 24, f->total);
}

/* Each entry ends at the movie time of the track's last media time. */
static void put_edts(struct writer *w, const struct plan *p, const struct track_facts *f)
{
    size_t edts = open_atom(w, "edts");
    size_t at = open_table(w, "elst");
    for (uint32_t i = 0; i < p->edits; i++) {
        put32(w, (uint32_t)((uint64_t)(f->total - 1) * MOVIE_SCALE / p->scale) + 1);
        put32(w, 0);
        put32(w, 65536);
    }
    close_table(w, at, p->edits);
    close_atom(w, edts);
}

/* From each sample on as many as last a second; no film is shorter. */
static void find_peak(const struct plan *p, struct track_facts *f)
{
    for (uint32_t first = 0; first < p->samples; first++) {
        uint64_t bytes = 0, time = 0;
        uint32_t past = first;
        for (; past < p->samples && time < p->scale; past++) {
            bytes += size_of(p, past);
            time += duration_of(p, past);
        }
        uint64_t rate = (8 * bytes * p->scale + time - 1) / time;
        if (time >= p->scale && rate > f->peak_rate) {
            f->peak_rate = rate;
            f->peak_first = first + 1;
            f->peak_samples = past - first;
        }
    }
}

static struct track_facts put_trak(struct writer *w, const struct plan *p, uint32_t id, uint32_t offset, const struct filling *free)
{
    struct track_facts f = {
        .id = id, .subtype = p->subtype, .scale = p->scale, .samples = p->samples, .edits = p->edits
    };
    size_t trak = open_atom(w, "trak");
    if (id == FILM_TRACKS)
        fill(w, free, IN_LAST_TRAK);
    size_t tkhd = open_atom(w, "tkhd");
    put32(w, 15);
    zeros(w, 80);
    poke32(w->bytes + tkhd + 20, id);
    close_atom(w, tkhd);
    put_mdia(w, p, &f, offset, free);
    if (p->edits != 0)
        put_edts(w, p, &f);
    close_atom(w, trak);
    find_peak(p, &f);
    return f;
}

/* Chunks of 10, then 20, then 30 samples: few entries of stsc. */
static uint32_t in_thirds(uint32_t chunk, uint32_t begin)
{
    (void)chunk;
    return begin < FILM_SAMPLES / 3 ? 10 : begin < FILM_SAMPLES / 3 * 2 ? 20 : 30;
}

/* No chunk like the one before: an entry of stsc for each. */
static uint32_t ten_or_twenty(uint32_t chunk, uint32_t begin)
{
    (void)begin;
    return chunk % 2 == 0 ? 10 : 20;
}

static uint32_t one_or_two(uint32_t chunk, uint32_t begin)
{
    (void)begin;
    return chunk % 2 == 0 ? 1 : 2;
}

static uint32_t one(uint32_t chunk, uint32_t begin)
{
    (void)chunk, (void)begin;
    return 1;
}

static const struct plan typical = { VIDE, 30000, false, false, false, 0, in_thirds, 0, FILM_SAMPLES, false };
static const struct plan sound = { SOUN, 48000, false, false, false, 0, in_thirds, 0, FILM_SAMPLES, false };
static const struct plan full = { VIDE, 30000, true, true, true, 0, ten_or_twenty, 0, FILM_SAMPLES, false };
static const struct plan short_chunks = { VIDE, 30000, true, true, true, 0, one_or_two, 0, FILM_SAMPLES, false };
static const struct plan lone = { VIDE, 30000, false, false, false, 2, one, 0, FILM_SAMPLES, false };
static const struct plan edited = { VIDE, 30000, false, false, false, 0, in_thirds, 256, FILM_SAMPLES, false };
static const struct plan small = { VIDE, 30000, false, false, false, 2, in_thirds, 0, FILM_SAMPLES, false };
static const struct plan empty = { VIDE, 30000, false, false, false, 2, in_thirds, 0, 0, false };
static const struct plan wasteful = { VIDE, 30000, false, false, false, 0, in_thirds, 0, FILM_SAMPLES, true };
static const struct plan full_edited = { VIDE, 30000, true, true, true, 0, ten_or_twenty, 256, FILM_SAMPLES, false };

/* With `others` the film has as many tracks as a film may have, all but the first without samples. */
static const struct {
    const char *name, *tables;
    const struct plan *plans[2];
    bool others;
    struct filling free;
} kinds[FILM_KINDS] = {
    { "one track", "stts one run, stsz per sample, stsc few entries, chunks of 10 to 30 samples", { &typical, NULL }, false, { NOWHERE, 0 } },
    { "two tracks", "two tracks like that", { &typical, &sound }, false, { NOWHERE, 0 } },
    { "full tables", "stts, ctts and stsz per sample, stss every second sample, stsc an entry for each chunk, of 10 and 20 samples in turn", { &full, NULL }, false, { NOWHERE, 0 } },
    { "full tables, short chunks", "the same with chunks of 1 and 2 samples in turn", { &short_chunks, NULL }, false, { NOWHERE, 0 } },
    { "one sample a chunk", "stts one run, a common size, stsc one entry, 1,000,000 chunks", { &lone, NULL }, false, { NOWHERE, 0 } },
    { "one track, 256 edits", "as one track, with 256 edits that each show all of it", { &edited, NULL }, false, { NOWHERE, 0 } },
    { "a million atoms", "stts one run, a common size, stsc few entries, and 1,000,000 free atoms of 8 bytes before them in stbl", { &small, NULL }, false, { IN_STBL, ATOMS } },
    { "full tables, 256 edits", "as full tables, with 256 edits that each show all of it", { &full_edited, NULL }, false, { NOWHERE, 0 } },
    { "a million atoms in a trak", "such tables in the first of 16 traks, 15 without samples, and the free atoms first in the last of them", { &small, NULL }, true, { IN_LAST_TRAK, ATOMS } },
    { "a million atoms in 16 mdia", "the same with the free atoms first in each mdia", { &small, NULL }, true, { IN_EACH_MDIA, ATOMS / FILM_TRACKS } },
    { "a million atoms in moov", "such tables in the one trak, and the free atoms last in moov", { &small, NULL }, false, { LAST_IN_MOOV, ATOMS } },
    { "a run for each sample", "as one track, with an stts entry for each sample and an stsc entry for each chunk", { &wasteful, NULL }, false, { NOWHERE, 0 } },
};

static void add_trak(struct writer *w, struct film *film, const struct plan *p, uint32_t offset, const struct filling *free)
{
    film->track[film->tracks] = put_trak(w, p, (uint32_t)film->tracks + 1, offset, free);
    film->tracks++;
}

/* ftyp, mdat, moov: with the mdat first the chunks' offsets are known when stco is written. */
struct film make_film(int kind)
{
    struct film film = { .name = kinds[kind].name, .tables = kinds[kind].tables, .slow = kinds[kind].free.place != NOWHERE };
    struct writer w = { 0 };
    size_t ftyp = open_atom(&w, "ftyp");
    put(&w, "qt  \0\0\0\0qt  ", 12);
    close_atom(&w, ftyp);
    size_t mdat = open_atom(&w, "mdat");
    uint32_t data = (uint32_t)w.len;
    zeros(&w, 3 * FILM_SAMPLES);
    close_atom(&w, mdat);
    size_t moov = open_atom(&w, "moov");
    size_t mvhd = open_atom(&w, "mvhd");
    zeros(&w, 100);
    poke32(w.bytes + mvhd + 20, MOVIE_SCALE);
    close_atom(&w, mvhd);
    for (int i = 0; i < 2 && kinds[kind].plans[i] != NULL; i++)
        add_trak(&w, &film, kinds[kind].plans[i], data, &kinds[kind].free);
    while (kinds[kind].others && film.tracks < FILM_TRACKS)
        add_trak(&w, &film, &empty, data, &kinds[kind].free);
    fill(&w, &kinds[kind].free, LAST_IN_MOOV);
    close_atom(&w, moov);
    film.bytes = w.bytes;
    film.len = w.len;
    film.moov = w.bytes + moov;
    film.moov_len = w.len - moov;
    return film;
}
