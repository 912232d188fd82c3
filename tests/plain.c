/* The plain version's grid and page, and grids as bytes: where a word is not the codeword of its data, its rows are repaired, and in two
   trials some of them are set aside. */
#include "plain.h"

enum { RADIUS = 7, MOST_ASIDE = 3, LONGEST_PAGE = 512, NUMBERS = 6, LENGTH_NOT_ALLOWED = 3, LOST = 1 << 24 | 2 << 28, LOST_FLIPS = 255 };

/* all ones, its number, which is refused with 7, and its verdict */
static const uint64_t ERASED = UINT64_MAX, BLANK = (uint64_t)1 << 32;
enum { ERASED_NUMBER = 65535, NUMBER_REFUSED = 7, BLANK_FLIPS = 128 };

/* The row with given data places. A row's check is what its check places have beyond that row's. With one 1 a check place was flipped, with
   three a data place, and with two or four the row needs two flips. For three, the row that has just this data place. */
static const uint8_t row_of[16] = {0x00, 0xB1, 0xD2, 0x63, 0x74, 0xC5, 0xA6, 0x17, 0xE8, 0x59, 0x3A, 0x8B, 0x9C, 0x2D, 0x4E, 0xFF};
static const uint8_t row_of_check[16] = {[0x7] = 0x74, [0xB] = 0xB1, [0xD] = 0xD2, [0xE] = 0xE8};

/* A row takes part in the equations of rows 4, 5 and 6 by bits 0, 1 and 2 of its address. A row times its address spread over three
   bytes is what it adds to the three. A row is named by its first place, 8r. */
static const uint8_t address_of[8] = {3, 5, 6, 7, 1, 2, 4, 0}, row_at[8] = {56, 32, 40, 0, 48, 8, 16, 24};
static const uint32_t spread[8] = {0x000101, 0x010001, 0x010100, 0x010101, 0x000001, 0x000100, 0x010000, 0x000000};

/* the first place of every row */
static const uint64_t FIRST = 0x0101010101010101;

/* Rows 4 to 7 of the codeword with these rows 0 to 3. Row 7, the parity of all others, comes to that of rows 0, 1 and 2. */
static inline uint32_t lower(uint32_t upper)
{
    return (upper & 255) * 0x01000101 ^ (upper >> 8 & 255) * 0x01010001 ^ (upper >> 16 & 255) * 0x01010100 ^ (upper >> 24) * 0x00010101;
}

/* The codeword whose rows 0 to 3 have these data places. */
static inline uint64_t encode(uint32_t a, uint32_t b, uint32_t c, uint32_t d)
{
    uint32_t upper = row_of[a] | (uint32_t)row_of[b] << 8 | (uint32_t)row_of[c] << 16 | (uint32_t)row_of[d] << 24;
    return upper | (uint64_t)lower(upper) << 32;
}

uint64_t plain_grid(uint16_t data)
{
    return encode(data & 15, data >> 4 & 15, data >> 8 & 15, data >> 12);
}

uint32_t plain_encode(uint16_t data, uint64_t *grid)
{
    *grid = data == ERASED_NUMBER ? 0 : plain_grid(data);
    return data == ERASED_NUMBER ? NUMBER_REFUSED : 0;
}

/* The codeword with a word's data places: the word itself if it is one. */
static inline uint64_t encode_again(uint64_t word)
{
    return encode(word & 15, word >> 8 & 15, word >> 16 & 15, word >> 24 & 15);
}

static inline uint32_t data_of(uint64_t codeword)
{
    uint32_t data = codeword & 0x0F0F0F0F;
    data = (data | data >> 4) & 0x00FF00FF;
    return (data | data >> 8) & 0xFFFF;
}

static inline uint64_t verdict(uint64_t codeword, uint32_t flips, uint32_t trials)
{
    return (codeword == ERASED ? BLANK : data_of(codeword)) | flips << 16 | trials << 28;
}

/* A word and its repaired rows; by first places the rows that needed a flip, and those that needed two; and the checks, which are what rows
   4 to 7 have beyond those that rows 0 to 3 make. */
struct repaired {
    uint64_t word, rows, any, two;
    uint32_t checks;
};

/* Every row is made that of its data places. Where a data place was flipped that is the wrong one, and the place's own row is added. */
static inline struct repaired repair(uint64_t word)
{
    uint64_t rows = (word & FIRST) * 0xB1 ^ (word >> 1 & FIRST) * 0xD2 ^ (word >> 2 & FIRST) * 0x74 ^ (word >> 3 & FIRST) * 0xE8;
    uint64_t checks = (word ^ rows) >> 4, odd = checks ^ checks >> 1, three = checks & checks >> 1;
    uint64_t any = (checks + 15 * FIRST) >> 4 & FIRST;
    odd = (odd ^ odd >> 2) & FIRST;
    for (three = (three | three >> 2) & odd; three != 0; three &= three - 1) {
        unsigned r = (unsigned)__builtin_ctzll(three);
        rows ^= (uint64_t)row_of_check[checks >> r & 15] << r;
    }
    return (struct repaired){word, rows, any, any ^ odd, lower((uint32_t)rows) ^ (uint32_t)(rows >> 32)};
}

/* the sum over the rows of what stands at their first places */
static inline uint32_t total(uint64_t rows)
{
    return (uint32_t)(rows * FIRST >> 56);
}

/* the address of a row that adds to just those of the three checks that are not 0 */
static inline uint32_t address_in(uint32_t checks)
{
    uint32_t set = (((checks & 0x7F7F7F) + 0x7F7F7F) | checks) >> 7 & 0x010101;
    return set * 0x10204 >> 16 & 7;
}

/* A codeword, how many places of the word differ from it, and the trials made. If it is none the flips are over the radius. */
struct found {
    uint64_t codeword;
    uint32_t flips, trials;
};

static inline struct found find(uint64_t word, uint64_t rows, int columns_hold)
{
    return (struct found){rows, columns_hold ? (uint32_t)__builtin_popcountll(word ^ rows) : RADIUS + 1, 1};
}

/* Rows in a trial, the checks of rows 4, 5 and 6, and the parity of all rows. Where rows are set aside, the parity is taken for the error of
   the first of them, i, and is out of the checks; then an error of another row, j, adds to them what it would in both rows. */
struct trial {
    uint64_t rows;
    uint32_t checks, parity;
};

/* No row is set aside, and one may be wrong. Its error is the parity, and where it stands the checks tell. */
static inline struct found none_aside(uint64_t word, struct trial t)
{
    unsigned i = row_at[address_in(t.checks)];
    return find(word, t.rows ^ (uint64_t)t.parity << i, t.checks == t.parity * spread[i / 8]);
}

/* Of two more rows set aside, j and k, one adds to a check to which the other does not: that check is its error. It returns the other. */
static inline unsigned mend_one(struct trial *t, unsigned i, unsigned j, unsigned k)
{
    uint32_t adds = spread[i / 8] ^ spread[j / 8], own = adds & ~(spread[i / 8] ^ spread[k / 8]);
    if (own == 0)
        return mend_one(t, i, k, j);
    uint32_t error = t->checks >> __builtin_ctz(own) & 255;
    t->rows ^= (uint64_t)error << j;
    t->checks ^= error * adds;
    t->parity ^= error;
    return k;
}

/* The candidate of a trial that sets these rows aside, three at most. They may be anything, and where one alone is set aside, one other row
   may be wrong. */
static struct found candidate(const struct repaired *q, uint64_t aside)
{
    struct trial t = {q->rows, q->checks & 0xFFFFFF, q->checks ^ q->checks >> 16};
    t.parity = (t.parity ^ t.parity >> 8) & 255;
    if (aside == 0)
        return none_aside(q->word, t);

    unsigned i = (unsigned)__builtin_ctzll(aside);
    t.checks ^= t.parity * spread[i / 8];
    aside &= aside - 1;
    unsigned j = aside == 0 ? row_at[address_of[i / 8] ^ address_in(t.checks)] : (unsigned)__builtin_ctzll(aside);
    aside &= aside - 1;
    if (aside != 0)
        j = mend_one(&t, i, j, (unsigned)__builtin_ctzll(aside));
    uint32_t error = (t.checks | t.checks >> 8 | t.checks >> 16) & 255;
    uint64_t rows = t.rows ^ (uint64_t)error << j ^ (uint64_t)(t.parity ^ error) << i;
    return find(q->word, rows, t.checks == error * (spread[i / 8] ^ spread[j / 8]));
}

/* Trial one sets aside the rows that needed two flips, trial two those that needed any. The word is lost if the flips are over the
   radius. */
static struct found mend(uint64_t word)
{
    struct repaired q = repair(word);
    struct found f = {q.rows, total(q.any + q.two), 1};

    /* the rows alone need so many flips; where none needed two and the columns hold, they are the candidate of trial one */
    if (f.flips > RADIUS || (q.checks | q.two) == 0)
        return f;
    f = candidate(&q, q.two);
    if (f.flips > RADIUS && q.any != q.two && total(q.any) <= MOST_ASIDE) {
        f = candidate(&q, q.any);
        f.trials = 2;
    }
    return f;
}

/* The repaired grid of a lost word is the word, which makes its pattern 0. */
static inline uint64_t decode(uint64_t word, uint64_t *repaired)
{
    *repaired = word;
    if (encode_again(word) == word)
        return verdict(word, 0, 1);
    struct found f = mend(word);
    if (f.flips > RADIUS)
        return LOST;
    *repaired = f.codeword;
    return verdict(f.codeword, f.flips, f.trials);
}

void plain_decode(const uint64_t *words, uint64_t n, uint64_t *verdicts, uint64_t *repaired, uint64_t *patterns)
{
    for (uint64_t k = 0; k < n; k++) {
        verdicts[k] = decode(words[k], &repaired[k]);
        patterns[k] = words[k] ^ repaired[k];
    }
}

void plain_scrub_bytes(uint8_t *grids, uint64_t n, uint32_t tally[NUMBERS], uint64_t *pattern)
{
    uint32_t blank = 0, mended = 0, lost = 0, flips = 0;
    for (uint64_t k = 0; k < n; k++) {
        uint64_t word;
        __builtin_memcpy(&word, grids + 8 * k, sizeof word);
        if (encode_again(word) == word) {
            blank += word == ERASED;
            continue;
        }
        struct found f = mend(word);
        if (f.flips > RADIUS) {
            lost++;
            continue;
        }
        flips += f.flips;
        __builtin_memcpy(grids + 8 * k, &f.codeword, sizeof f.codeword);
        if (f.codeword == ERASED) {
            blank++;
        } else {
            mended++;
            *pattern = word ^ f.codeword;
        }
    }
    tally[0] += (uint32_t)n;
    tally[1] += (uint32_t)n - blank - mended - lost;
    tally[2] += blank;
    tally[3] += mended;
    tally[4] += lost;
    tally[5] += flips;
}

void plain_encode_bytes(const uint16_t *data, uint64_t n, uint8_t *grids)
{
    for (uint64_t k = 0; k < n; k++) {
        uint64_t grid = plain_grid(data[k]);
        __builtin_memcpy(grids + 8 * k, &grid, sizeof grid);
    }
}

void plain_decode_bytes(const uint8_t *grids, uint64_t n, uint16_t *data, uint8_t *flips)
{
    for (uint64_t k = 0; k < n; k++) {
        struct found f = {.flips = 0};
        __builtin_memcpy(&f.codeword, grids + 8 * k, sizeof f.codeword);
        if (encode_again(f.codeword) != f.codeword)
            f = mend(f.codeword);
        if (f.flips > RADIUS) {
            data[k] = 0;
            flips[k] = LOST_FLIPS;
            continue;
        }
        data[k] = (uint16_t)data_of(f.codeword);
        flips[k] = (uint8_t)(f.flips + (f.codeword == ERASED ? BLANK_FLIPS : 0));
    }
}

uint32_t plain_scrub(uint64_t *page, uint64_t n, uint32_t tally[NUMBERS], uint64_t *pattern)
{
    if (n > LONGEST_PAGE)
        return LENGTH_NOT_ALLOWED;
    for (unsigned k = 0; k < NUMBERS; k++)
        tally[k] = 0;
    *pattern = 0;
    plain_scrub_bytes((uint8_t *)page, n, tally, pattern);
    return 0;
}
