/*
 * Compiled twice. As scalar_pass, the limit that the ratios are stated to, with -O2 -fno-tree-vectorize: a load, a byte
 * swap and an add for each word. (gcc 12 makes the same loop at plain -O2, its very cheap cost model not taking a number
 * of words that isn't known.) As vector_pass with -O3 -march=native: the vectors of the machine at hand.
 */
#include "pass.h"

#include <string.h>

uint64_t PASS(const uint8_t *s, size_t len)
{
    uint64_t sum = 0;
    size_t words = len / 4;
    for (size_t i = 0; i < words; i++) {
        uint32_t word;
        memcpy(&word, s + 4 * i, 4);
        sum += __builtin_bswap32(word);
    }
    return sum;
}
