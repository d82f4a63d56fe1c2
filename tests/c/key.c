#include "key.h"

#include <assert.h>

uint32_t pseudo_key(uint32_t call)
{
    uint32_t key = 2166136261u;
    for (unsigned byte = 0; byte < 4; byte++) {
        key ^= call >> 8 * byte & 255u;
        key *= 16777619u; /* 32 bits of the product are kept */
    }
    return key;
}

unsigned first_bits(uint32_t call, unsigned depth)
{
    return depth == 0 ? 0 : pseudo_key(call) >> (32 - depth);
}

uint32_t call_under(unsigned depth, unsigned pattern, uint32_t from)
{
    uint32_t call = from;
    while (first_bits(call, depth) != pattern) {
        assert(call < UINT32_MAX);
        call++;
    }
    return call;
}
