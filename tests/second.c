/* The second program's grid and page. The rules (docs/FORMAT.md) stand above what they say. */
#include "second.h"
#include "second_pattern.h"

int printf(const char *, ...);
void exit(int);
void *memchr(const void *, int, unsigned long);

enum { VALUES = 65536, LONGEST_PAGE = 512, NUMBERS = 6, LENGTH_NOT_ALLOWED = 3, LOST = 1, ERASED = 7 };

unsigned second_radius = 7, second_most_paid = 3;

/* A grid place by place: what stands at row r, place c. */
struct places {
    unsigned at[8][8];
};

uint64_t second_grid(uint16_t data)
{
    struct places g = {0};

    /* Data bit k (0 to 15) stands at row k/4, place k mod 4. */
    for (unsigned k = 0; k < 16; k++)
        g.at[k / 4][k % 4] = data >> k & 1;

    /* Each of rows 0 to 3: place 4 is the parity of places 0, 1, 2; place 5 of places 0, 2, 3; place 6 of places 1, 2, 3. */
    for (unsigned r = 0; r < 4; r++) {
        g.at[r][4] = (g.at[r][0] + g.at[r][1] + g.at[r][2]) % 2;
        g.at[r][5] = (g.at[r][0] + g.at[r][2] + g.at[r][3]) % 2;
        g.at[r][6] = (g.at[r][1] + g.at[r][2] + g.at[r][3]) % 2;
    }

    /* Each of columns 0 to 6: row 4 is the parity of rows 0, 1, 3; row 5 of rows 0, 2, 3; row 6 of rows 1, 2, 3. */
    for (unsigned c = 0; c < 7; c++) {
        g.at[4][c] = (g.at[0][c] + g.at[1][c] + g.at[3][c]) % 2;
        g.at[5][c] = (g.at[0][c] + g.at[2][c] + g.at[3][c]) % 2;
        g.at[6][c] = (g.at[1][c] + g.at[2][c] + g.at[3][c]) % 2;
    }

    /* Place 7 of rows 0 to 6 is the parity of places 0 to 6. */
    for (unsigned r = 0; r < 7; r++)
        for (unsigned c = 0; c < 7; c++)
            g.at[r][7] ^= g.at[r][c];

    /* Row 7, places 0 to 6, is the parity of rows 0 to 6 in that column. Row 7, place 7 is the parity of place 7 over rows 0 to 6. */
    for (unsigned c = 0; c < 8; c++)
        for (unsigned r = 0; r < 7; r++)
            g.at[7][c] ^= g.at[r][c];

    /* Row r is byte r of a 64-bit number, lowest byte first; place c of a row is bit c. */
    uint64_t number = 0;
    for (unsigned r = 0; r < 8; r++)
        for (unsigned c = 0; c < 8; c++)
            number |= (uint64_t)g.at[r][c] << (8 * r + c);
    return number;
}

uint32_t second_encode(uint16_t number, uint64_t *grid)
{
    /* Number 65,535 given to the encoder: 7. */
    *grid = number == ERASED_NUMBER ? 0 : second_grid(number);
    return number == ERASED_NUMBER ? ERASED : 0;
}

unsigned second_distance(uint64_t a, uint64_t b)
{
    unsigned places = 0;
    for (unsigned k = 0; k < 64; k++)
        places += (a >> k & 1) != (b >> k & 1);
    return places;
}

/* 65,536 codewords are looked at for each word, so the counting has to be quick. The codeword of a data value is the exclusive or of
   the codewords of its high and of its low byte. So a word differs from it in the places in which the word, exclusive or the high byte's
   codeword, differs from the low byte's. They are counted row by row: differing[r][x][l] is the count if row r is x and the low byte l.
   `decode` tests the rule and the counts. */
static uint64_t high[256], low[256];
static uint8_t differing[8][256][256];

/* Repairing a row makes it the nearest of the 16 row codewords, which are row 0 of the codewords of 0 to 15. Where that needs two flips
   several are as near, and any of them will do: the row is set aside in both trials. */
static struct {
    uint8_t flips, repaired;
} rows[256];

static void prepare_rows(void)
{
    for (unsigned x = 0; x < 256; x++) {
        rows[x].flips = 8;
        for (uint16_t d = 0; d < 16; d++) {
            uint8_t row = (uint8_t)second_grid(d), flips = (uint8_t)second_distance(x, row);
            if (flips < rows[x].flips) {
                rows[x].flips = flips;
                rows[x].repaired = row;
            }
        }
    }
}

static void prepare(void)
{
    static int prepared;
    if (prepared)
        return;
    prepared = 1;
    for (unsigned d = 0; d < 256; d++) {
        low[d] = second_grid((uint16_t)d);
        high[d] = second_grid((uint16_t)(256 * d));
        for (unsigned r = 0; r < 8; r++)
            for (unsigned x = 0; x < 256; x++)
                differing[r][x][d] = (uint8_t)second_distance(x, low[d] >> 8 * r & 255);
    }
    prepare_rows();
}

const uint8_t *second_counts(uint64_t word)
{
    static uint8_t counts[VALUES];
    prepare();
    for (unsigned h = 0; h < 256; h++) {
        const uint8_t *row[8];
        for (unsigned r = 0; r < 8; r++)
            row[r] = differing[r][(word ^ high[h]) >> 8 * r & 255];
        for (unsigned l = 0; l < 256; l++)
            counts[256 * h + l] = (uint8_t)(row[0][l] + row[1][l] + row[2][l] + row[3][l] + row[4][l] + row[5][l] + row[6][l] + row[7][l]);
    }
    return counts;
}

/* a trial on a word: which rows it sets aside, and the repaired rows; how many candidates it has, and the last of them */
struct trial {
    uint8_t aside[8], repaired[8];
    unsigned candidates;
    uint64_t candidate;
};

/* Whether row r of a codeword is one of w: it is not set aside, and does not agree with the repaired row. */
static inline unsigned disagrees(const struct trial *t, unsigned r, uint64_t row)
{
    return !t->aside[r] && (row & 255) != t->repaired[r];
}

/* The candidate of a trial, with s rows set aside, is the codeword whose other rows agree with the repaired rows in all but w, with 2w + s
   at most 3. This goes through all codewords with this data in rows 0 to r - 1, where `paid` is s, and 2 for each of these rows that
   disagrees. Row r (0 to 3) of a codeword has its own four data bits and no others: if it makes that too much, it does so in all codewords
   that have it, and they are passed over. `decode` tests that no candidate is. */
static void look(struct trial *t, unsigned r, uint32_t data, unsigned paid)
{
    if (r < 4) {
        for (uint32_t places = 0; places < 16; places++) {
            unsigned more = paid + 2 * disagrees(t, r, low[places]);
            if (more <= second_most_paid)
                look(t, r + 1, data | places << 4 * r, more);
        }
        return;
    }
    uint64_t codeword = high[data / 256] ^ low[data % 256];
    for (; r < 8; r++)
        paid += 2 * disagrees(t, r, codeword >> 8 * r);
    if (paid <= second_most_paid) {
        t->candidates++;
        t->candidate = codeword;
    }
}

int second_candidate(uint64_t word, unsigned trial, uint64_t *candidate)
{
    /* Call a row set aside if repairing it needs two flips; in trial two, if it needs one or two. */
    struct trial t = {.candidates = 0};
    unsigned s = 0;
    prepare();
    for (unsigned r = 0; r < 8; r++) {
        unsigned row = word >> 8 * r & 255;
        t.aside[r] = trial == 1 ? rows[row].flips == 2 : rows[row].flips >= 1;
        t.repaired[r] = rows[row].repaired;
        s += t.aside[r];
    }
    if (s <= second_most_paid)
        look(&t, 0, 0, s);

    /* At most one such exists. */
    if (t.candidates > 1) {
        printf("FAILED the second program, two candidates: in trial %u on the grid %016llX\n", trial, (unsigned long long)word);
        exit(1);
    }
    *candidate = t.candidate;
    return t.candidates == 1;
}

struct answer second_decode(uint64_t word)
{
    /* Let n be the least number of places in which the word read differs from a codeword. */
    const uint8_t *counts = second_counts(word), *end = counts + VALUES;
    uint8_t n = 64;
    for (unsigned d = 0; d < VALUES; d++)
        n = counts[d] < n ? counts[d] : n;

    /* Trials made: 1 if the first candidate is within 7 places, 2 otherwise. */
    uint64_t candidate;
    int given = second_candidate(word, 1, &candidate) && second_distance(word, candidate) <= second_radius;
    uint32_t trials = given ? 1 : 2;

    /* If n is over the radius: lost. On refusal the grid as read, and no flips. */
    if (n > second_radius)
        return (struct answer){.number = LOST, .trials = trials, .repaired = word};

    /* No word has two nearest codewords within the radius. */
    const uint8_t *one = memchr(counts, n, VALUES);
    if (memchr(one + 1, n, (unsigned long)(end - one - 1)) != 0) {
        printf("FAILED the second program, a tie: two codewords are %u places from the grid %016llX\n", n, (unsigned long long)word);
        exit(1);
    }

    /* Otherwise the codeword is the answer, and the places that differ from it are the flips. If it is all ones: blank, with its flips and
       no data. If not: clean if n = 0, mended with n flips otherwise. */
    uint16_t data = (uint16_t)(one - counts);
    uint64_t codeword = second_grid(data);
    struct answer a = {.flips = n, .trials = trials, .repaired = codeword, .pattern = second_pattern(word, codeword)};
    if (codeword == ERASED_GRID)
        a.blank = 1;
    else
        a.data = data;

    /* If a codeword within 7 exists, one of the two trials gives it. */
    if (!given)
        given = second_candidate(word, 2, &candidate);
    if (!given || candidate != codeword) {
        printf("FAILED the second program, no candidate: no trial gives the codeword near the grid %016llX\n", (unsigned long long)word);
        exit(1);
    }
    return a;
}

void second_count(struct answer a, uint32_t tally[NUMBERS], uint64_t *pattern)
{
    /* Grids = clean + blank + mended + lost. Flips is the sum over blank and mended grids. */
    tally[0]++;
    tally[5] += a.flips;
    if (a.number != 0) {
        tally[4]++;
    } else if (a.blank) {
        tally[2]++;
    } else if (a.flips == 0) {
        tally[1]++;
    } else {
        tally[3]++;
        *pattern = a.pattern;
    }
}

uint32_t second_scrub(uint64_t *page, uint64_t n, uint32_t tally[NUMBERS], uint64_t *pattern)
{
    /* Page: 0 to 512 grids. A length not allowed: nothing written. */
    if (n > LONGEST_PAGE)
        return LENGTH_NOT_ALLOWED;

    /* Each mended grid is replaced by its codeword, and a blank one by all ones; clean and lost grids are kept. */
    *pattern = 0;
    for (unsigned k = 0; k < NUMBERS; k++)
        tally[k] = 0;
    for (uint64_t k = 0; k < n; k++) {
        struct answer a = second_decode(page[k]);
        second_count(a, tally, pattern);
        page[k] = a.repaired;
    }
    return 0;
}
