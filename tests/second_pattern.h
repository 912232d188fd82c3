/* The second program's pattern of the flips, for a grid and for each word of a block. */
#pragma once
#include <stdint.h>

/* Where what was read and the codeword differ, place by place. */
static inline uint64_t second_pattern(uint64_t read, uint64_t codeword)
{
    uint64_t pattern = 0;
    for (unsigned p = 0; p < 64; p++)
        if ((read >> p & 1) != (codeword >> p & 1))
            pattern |= (uint64_t)1 << p;
    return pattern;
}
