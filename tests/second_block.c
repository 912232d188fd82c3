/* The second program's block. The rules (docs/FORMAT.md) stand above what they say. */
#include "second_block.h"
#include "second_pattern.h"

int printf(const char *, ...);
void exit(int);
int memcmp(const void *, const void *, unsigned long);
void *memcpy(void *, const void *, unsigned long);
void qsort(void *, unsigned long, unsigned long, int (*)(const void *, const void *));

enum { DATA = 32, CHECKS = 6, WORDS = DATA + CHECKS, BITS = 16, PLACES = WORDS * BITS, PATTERNS = PLACES + PLACES * (PLACES - 1) / 2 };
enum { LENGTH_NOT_ALLOWED = 3, LOST = 2 };

unsigned second_block_system = 1;

/* A block place by place: what stands at bit c of word r. */
struct places {
    unsigned at[WORDS][BITS];
};

void second_block(const uint16_t values[DATA], uint16_t words[WORDS])
{
    struct places b = {0};

    /* Words 0 to 31 are data: row r, column c is bit c of word r. */
    for (unsigned r = 0; r < DATA; r++)
        for (unsigned c = 0; c < BITS; c++)
            b.at[r][c] = values[r] >> c & 1;

    for (unsigned r = 0; r < DATA; r++)
        for (unsigned c = 0; c < BITS; c++) {
            /* Words 32 and 33 hold row parities 0 to 15 and 16 to 31. Word 34 holds column parities 0 to 15. */
            b.at[32 + r / 16][r % 16] ^= b.at[r][c];
            b.at[34][c] ^= b.at[r][c];

            /* Diagonal t (0 to 46) is the parity of all data places with r + c = t; it is bit t mod 16 of word 35 + t/16. */
            unsigned t = r + c;
            b.at[35 + t / 16][t % 16] ^= b.at[r][c];

            /* Bit 15 of word 37 is the system parity: the parity of the 512 data bits alone. */
            b.at[37][15] ^= b.at[r][c] & second_block_system;
        }

    for (unsigned r = 0; r < WORDS; r++) {
        words[r] = 0;
        for (unsigned c = 0; c < BITS; c++)
            words[r] |= (uint16_t)(b.at[r][c] << c);
    }
}

uint32_t second_block_encode(const uint16_t *values, uint64_t n, uint16_t *words, uint64_t m)
{
    /* Block data: exactly 32 words in, exactly 38 out. A length not allowed: nothing written. */
    if (n != DATA || m != WORDS)
        return LENGTH_NOT_ALLOWED;
    second_block(values, words);
    return 0;
}

/* The syndrome of a block: where its check words are not those of its data. It is 0 for the codewords alone. */
struct syndrome {
    uint16_t words[CHECKS];
};

static struct syndrome syndrome_of(const uint16_t words[WORDS])
{
    uint16_t codeword[WORDS];
    struct syndrome s;
    second_block(words, codeword);
    for (unsigned k = 0; k < CHECKS; k++)
        s.words[k] = words[DATA + k] ^ codeword[DATA + k];
    return s;
}

static int order(const struct syndrome *a, const struct syndrome *b)
{
    return memcmp(a, b, sizeof *a);
}

static int is_zero(const struct syndrome *s)
{
    static const struct syndrome zero;
    return order(s, &zero) == 0;
}

/* Place p (0 to 607) is bit p mod 16 of word p/16. */
static void flip(uint16_t *words, unsigned p)
{
    words[p / BITS] ^= (uint16_t)(1 << p % BITS);
}

/* Every equation is a parity. So flips lead from a word to a codeword exactly if they, in a block of zeros, have the word's syndrome; and
   two flips have the exclusive or of their syndromes. `block` tests the rule. The patterns stand in the order of their syndromes, and where
   that is the same, those with fewer flips first. */
static struct pattern {
    struct syndrome syndrome;
    uint16_t flips, places[2];
} patterns[PATTERNS];

static int order_patterns(const void *a, const void *b)
{
    const struct pattern *p = a, *q = b;
    int by_syndrome = order(&p->syndrome, &q->syndrome);
    return by_syndrome != 0 ? by_syndrome : p->flips - q->flips;
}

static void prepare(void)
{
    static struct syndrome of[PLACES];
    unsigned n = 0;
    for (unsigned p = 0; p < PLACES; p++) {
        uint16_t words[WORDS] = {0};
        flip(words, p);
        of[p] = syndrome_of(words);
        patterns[n++] = (struct pattern){.syndrome = of[p], .flips = 1, .places = {(uint16_t)p}};
        for (unsigned q = 0; q < p; q++) {
            struct pattern both = {.flips = 2, .places = {(uint16_t)p, (uint16_t)q}};
            for (unsigned k = 0; k < CHECKS; k++)
                both.syndrome.words[k] = of[p].words[k] ^ of[q].words[k];
            patterns[n++] = both;
        }
    }
    qsort(patterns, PATTERNS, sizeof *patterns, order_patterns);
}

/* The first pattern whose syndrome does not come before this one; behind the last pattern, if all do. */
static const struct pattern *first(const struct syndrome *s)
{
    static int prepared;
    if (!prepared) {
        prepare();
        prepared = 1;
    }

    unsigned low = 0, high = PATTERNS;
    while (low < high) {
        unsigned middle = (low + high) / 2;
        if (order(&patterns[middle].syndrome, s) < 0)
            low = middle + 1;
        else
            high = middle;
    }
    return patterns + low;
}

struct block_answer second_block_scrub(uint16_t *words, uint64_t n)
{
    /* A block to scrub: exactly 38. A length not allowed: nothing written. */
    if (n != WORDS)
        return (struct block_answer){.number = LENGTH_NOT_ALLOWED};

    /* If the word read differs from a codeword in 0 places: clean. */
    struct syndrome s = syndrome_of(words);
    if (is_zero(&s))
        return (struct block_answer){0};

    /* If the least number of places is over the radius: lost. On refusal the block is untouched. */
    const struct pattern *one = first(&s), *next = one + 1, *end = patterns + PATTERNS;
    if (one == end || order(&one->syndrome, &s) != 0)
        return (struct block_answer){.number = LOST};

    /* No word has two nearest codewords within the radius. */
    if (next != end && order(&next->syndrome, &s) == 0 && next->flips == one->flips) {
        printf("FAILED the second program, a tie: two codewords are %u places from the block", one->flips);
        for (unsigned r = 0; r < WORDS; r++)
            printf(" %04X", words[r]);
        printf("\n");
        exit(1);
    }

    /* Otherwise the codeword is the answer, and afterwards the 38 words are the codeword. The places that differ from it are the flips. */
    uint16_t codeword[WORDS];
    memcpy(codeword, words, sizeof codeword);
    for (unsigned k = 0; k < one->flips; k++)
        flip(codeword, one->places[k]);
    struct block_answer a = {.flips = one->flips};
    for (unsigned r = 0; r < WORDS; r++) {
        a.pattern[r] = (uint16_t)second_pattern(words[r], codeword[r]);
        words[r] = codeword[r];
    }
    return a;
}

uint32_t second_block_syndromes(void)
{
    static const struct syndrome zero;
    const struct pattern *end = patterns + PATTERNS;
    uint32_t different = 0;
    for (const struct pattern *p = first(&zero); p != end; p++)
        different += !is_zero(&p->syndrome) && (p == patterns || order(&p->syndrome, &p[-1].syndrome) != 0);
    return different;
}
