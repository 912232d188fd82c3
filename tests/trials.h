/* The trials of a grid that was written and has been damaged, by its flips alone: row by row, what trial one pays for them. */
#pragma once
#include "plain.h"

/* whether these places of a row are a row codeword */
static inline int is_row_codeword(unsigned row)
{
    return (plain_grid(row & 15) & 255) == row;
}

/* What a row with these flips adds to 2w + s in trial one. Two row codewords differ in four places or in eight. So an odd number of flips is
   undone if it is one, and if not, another row codeword is a flip away, and is taken for the row. An even number makes another row codeword,
   or needs two flips, and the row is set aside. */
static inline unsigned pays(unsigned flips)
{
    unsigned n = (unsigned)__builtin_popcount(flips);
    if (n < 2)
        return 0;
    return n % 2 == 1 || is_row_codeword(flips) ? 2 : 1;
}

/* For up to eight flips. Eight are lost, which makes two trials. */
static inline unsigned trials_of(uint64_t flips)
{
    unsigned paid = 0;
    for (unsigned r = 0; r < 8; r++)
        paid += pays(flips >> 8 * r & 255);
    return __builtin_popcountll(flips) <= 7 && paid <= 3 ? 1 : 2;
}
