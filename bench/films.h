/* Films made in memory: big sample tables, a small mdat, accepted by document 01. */
#ifndef BENCH_FILMS_H
#define BENCH_FILMS_H

#include <stdbool.h>
#include <stddef.h>
#include <stdint.h>

enum { FILM_KINDS = 12, FILM_TRACKS = 16, FILM_SAMPLES = 1000000 };

/* What the tables of a track say, counted while they are made: the answers are checked against it. */
struct track_facts {
    uint32_t id, subtype, scale, total, samples, chunks, edits;
    uint32_t last_duration, last_size, last_begin;
    uint64_t bytes;
    uint64_t peak_rate, peak_first, peak_samples; /* the second with the highest bit rate, the first of equal ones */
};

struct film {
    const char *name;
    const char *tables;
    uint8_t *bytes;
    size_t len;
    const uint8_t *moov; /* the atom with its header */
    size_t moov_len;
    bool slow; /* its questions take so long that fewer rounds are enough */
    int tracks;
    struct track_facts track[FILM_TRACKS];
};

/* The film of that kind, 0 to FILM_KINDS - 1; the caller frees `bytes`. */
struct film make_film(int kind);

#endif
