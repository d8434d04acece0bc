/* The limit: one pass over bytes, as big-endian 32-bit words, added. */
#ifndef BENCH_PASS_H
#define BENCH_PASS_H

#include <stddef.h>
#include <stdint.h>

uint64_t scalar_pass(const uint8_t *s, size_t len);
uint64_t vector_pass(const uint8_t *s, size_t len);

#endif
