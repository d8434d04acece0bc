/* libavformat on bytes in memory. */
#ifndef BENCH_AV_H
#define BENCH_AV_H

#include <stdbool.h>
#include <stddef.h>
#include <stdint.h>

/* Opens the film, which builds the index, and closes it; with `probe` it also finds the streams' information, and then
   that alone is timed. The entries of the index go to *entries, the milliseconds to *ms. */
bool av_read(const uint8_t *bytes, size_t len, bool probe, long *entries, double *ms);

#endif
