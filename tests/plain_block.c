/* The plain version's block: its checks are two numbers, and data places that may be flipped are guessed from them. */
#include "plain.h"

enum { ROWS = 32, COLUMNS = 16, WORDS = 38, LENGTH_NOT_ALLOWED = 3, REFUSED = LENGTH_NOT_ALLOWED << 8, LOST = 2 << 8 };

/* The 96 check places as two numbers: row parities and from bit 32 on column parities; diagonals, and at bit 47 the system parity. */
struct checks {
    uint64_t lines, diagonals;
};

static inline uint32_t parity(uint32_t x)
{
    return (uint32_t)__builtin_popcount(x) & 1;
}

/* The checks of the data words. Two rows are taken at a time, the last ones first: each time all that came before moves up by two. */
static inline struct checks checks_of(const uint16_t *words)
{
    uint32_t rows = 0, columns = 0;
    uint64_t diagonals = 0;
    for (unsigned r = ROWS; r > 0; r -= 2) {
        uint32_t even = words[r - 2], odd = words[r - 1];
        columns ^= even ^ odd;
        diagonals = diagonals << 2 ^ (odd << 1 ^ even);
        rows = rows << 2 | (parity(odd) << 1 | parity(even));
    }
    return (struct checks){rows | (uint64_t)columns << 32, diagonals | (uint64_t)parity(columns) << 47};
}

/* The checks as the words behind the data. */
static inline void put_checks(uint16_t *words, struct checks s)
{
    words[32] = (uint16_t)s.lines;
    words[33] = (uint16_t)(s.lines >> 16);
    words[34] = (uint16_t)(s.lines >> 32);
    words[35] = (uint16_t)s.diagonals;
    words[36] = (uint16_t)(s.diagonals >> 16);
    words[37] = (uint16_t)(s.diagonals >> 32);
}

uint32_t plain_block_encode(const uint16_t *values, uint64_t n, uint16_t *words, uint64_t m)
{
    if (n != ROWS || m != WORDS)
        return LENGTH_NOT_ALLOWED;
    struct checks s = checks_of(values);
    for (unsigned r = 0; r < ROWS; r++)
        words[r] = values[r];
    put_checks(words, s);
    return 0;
}

static inline void flip_data(uint16_t *pattern, unsigned r, unsigned c)
{
    pattern[r] ^= (uint16_t)(1 << c);
}

/* The lowest row, column and diagonal; 32, 16 and 48 if there is none. */
static inline unsigned row_in(uint64_t lines)
{
    return (unsigned)__builtin_ctzll(lines | (uint64_t)1 << 32);
}

static inline unsigned column_in(uint64_t lines)
{
    return (unsigned)__builtin_ctzll(lines >> 32 | 1 << 16);
}

static inline unsigned diagonal_in(uint64_t diagonals)
{
    return (unsigned)__builtin_ctzll(diagonals | (uint64_t)1 << 48);
}

/* What remains of the checks without the four of a data place. */
static inline struct checks without(struct checks s, unsigned r, unsigned c)
{
    s.lines ^= (uint64_t)1 << r ^ (uint64_t)1 << 32 << c;
    s.diagonals ^= (uint64_t)1 << (r + c) ^ (uint64_t)1 << 47;
    return s;
}

/* The flips, if this data place is one of at most two, and then they are put into the pattern, which is 0 so far; 0 if it is not, or if
   there is no such place. The other one is the check that remains, or the data place in the lowest row and column that remain. */
static inline uint32_t guess(uint16_t *pattern, struct checks s, unsigned r, unsigned c)
{
    if (r >= ROWS || c >= COLUMNS)
        return 0;
    struct checks rest = without(s, r, c);
    uint64_t any = rest.lines | rest.diagonals;
    if ((rest.lines == 0 || rest.diagonals == 0) && (any & (any - 1)) == 0) {
        flip_data(pattern, r, c);
        put_checks(pattern, rest);
        return any == 0 ? 1 : 2;
    }

    unsigned row = row_in(rest.lines), column = column_in(rest.lines);
    if (row >= ROWS || column >= COLUMNS)
        return 0;
    rest = without(rest, row, column);
    if ((rest.lines | rest.diagonals) != 0)
        return 0;
    flip_data(pattern, r, c);
    flip_data(pattern, row, column);
    return 2;
}

/* Of at most two flips, not all of them checks, one is the data place in the lowest row and column, in the lowest row and diagonal, in the
   lowest column and diagonal, or in the lowest row and the second column. */
static uint32_t mend(uint16_t *pattern, struct checks s)
{
    uint32_t flips = (uint32_t)(__builtin_popcountll(s.lines) + __builtin_popcountll(s.diagonals));
    if (flips <= 2) {
        put_checks(pattern, s);
        return flips;
    }

    unsigned r = row_in(s.lines), c = column_in(s.lines), t = diagonal_in(s.diagonals);
    flips = guess(pattern, s, r, c);
    if (flips == 0)
        flips = guess(pattern, s, r, t - r);
    if (flips == 0)
        flips = guess(pattern, s, t - c, c);
    if (flips == 0)
        flips = guess(pattern, s, r, column_in(s.lines ^ (uint64_t)1 << 32 << c));
    return flips != 0 ? flips : LOST;
}

uint32_t plain_block_scrub(uint16_t *restrict words, uint64_t n, uint16_t pattern[restrict WORDS])
{
    for (unsigned r = 0; r < WORDS; r++)
        pattern[r] = 0;
    if (n != WORDS)
        return REFUSED;
    struct checks s = checks_of(words);
    s.lines ^= words[32] | (uint64_t)words[33] << 16 | (uint64_t)words[34] << 32;
    s.diagonals ^= words[35] | (uint64_t)words[36] << 16 | (uint64_t)words[37] << 32;
    if ((s.lines | s.diagonals) == 0)
        return 0;
    uint32_t flips = mend(pattern, s);
    if (flips != LOST)
        for (unsigned r = 0; r < WORDS; r++)
            words[r] ^= pattern[r];
    return flips;
}
