/* The library's block beside the second program's. `block` is called as `flip.h` says; the bits are 0 to 63 in the first four words of a
   block, 64 to 95 in the number returned, 128 to 191 in the first four words of the pattern. A difference is reported at the number of the
   block in its test, or, for one and two flips, at 1000 times the place of the one and the place of the other: place p is bit p mod 16 of
   word p/16. */
#include "block_sides.h"
#include "draw.h"
#include "flip.h"
#include "library.h"
#include "second_block.h"

enum { MANY = 20000, SOME = 5000 };

/* no two codewords are nearer than 5, since the second program has no two patterns that are alike; how near some are is counted here */
static void constants(void)
{
    struct test t = {.name = "the block's radius, length and distance"};
    unsigned nearest = PLACES;
    for (unsigned p = 0; p < DATA_PLACES; p++) {
        uint16_t values[DATA] = {0}, words[WORDS];
        unsigned ones = 0;
        values[p / BITS] = (uint16_t)(1 << p % BITS);
        second_block(values, words);
        for (unsigned k = 0; k < PLACES; k++)
            ones += words[k / BITS] >> k % BITS & 1;
        nearest = ones < nearest ? ones : nearest;
    }
    compare(&t, block_radius(), 2, 0);
    compare(&t, block_length(), PLACES, 1);
    compare(&t, block_distance(), nearest, 2);
    report(&t);
}

/* 608 + 608*607/2 patterns, no two of them alike, so that no tie is possible; and the rule that they rest on */
static void patterns(void)
{
    struct test t = {.name = "the second program's 185136 syndromes of one and two flips"};
    compare(&t, second_block_syndromes(), 185136, 0);
    for (unsigned k = 0; k < SOME; k++) {
        struct state one, other, both;
        draw_block(&one);
        draw_block(&other);
        for (unsigned r = 0; r < DATA; r++)
            both.room[r] = one.room[BEFORE + r] ^ other.room[BEFORE + r];
        second_block(both.room, both.room);
        for (unsigned r = 0; r < WORDS; r++)
            compare(&t, both.room[r], one.room[BEFORE + r] ^ other.room[BEFORE + r], k);
    }
    report_drawn(t);
}

static void worked_numbers(void)
{
    static const struct {
        uint16_t words[WORDS];
    } worked[] = {
        {{[0] = 1, [32] = 1, [34] = 1, [35] = 1, [37] = 0x8000}},
        {{[31] = 0x8000, [33] = 0x8000, [34] = 0x8000, [37] = 0xC000}},
        {{6, 5, 3}},
    };
    struct test t = {.name = "the worked numbers, block"};
    for (unsigned k = 0; k < sizeof worked / sizeof *worked; k++) {
        uint16_t library[WORDS], second[WORDS];
        compare(&t, block_encode(worked[k].words, DATA, library, WORDS), 0, k);
        second_block(worked[k].words, second);
        for (unsigned r = 0; r < WORDS; r++) {
            compare(&t, library[r], worked[k].words[r], k);
            compare(&t, second[r], worked[k].words[r], k);
        }
    }

    /* three flips: mended with 2 flips, in words 0 and 37, to the block with row 0, column 0 */
    static const uint16_t expected[WORDS] = {[0] = 1, [37] = 0x8000};
    uint16_t library[WORDS] = {[32] = 1, [34] = 1, [35] = 1}, second[WORDS] = {[32] = 1, [34] = 1, [35] = 1}, pattern[WORDS];
    compare(&t, block_scrub(library, WORDS, pattern), 2, 3);
    struct block_answer a = second_block_scrub(second, WORDS);
    compare(&t, a.number, 0, 3);
    compare(&t, a.flips, 2, 3);
    for (unsigned r = 0; r < WORDS; r++) {
        compare(&t, library[r], worked[0].words[r], 3);
        compare(&t, second[r], worked[0].words[r], 3);
        compare(&t, pattern[r], expected[r], 3);
        compare(&t, a.pattern[r], expected[r], 3);
    }
    report(&t);
}

static void encodes(void)
{
    struct test bits = {.name = "block encode, every data bit, none and all"}, others = {.name = "block encode, random data"};
    struct state data;
    for (unsigned p = 0; p < DATA_PLACES + 2; p++) {
        draw_words(&data);
        for (unsigned r = 0; r < DATA; r++)
            data.room[BEFORE + r] = p > DATA_PLACES ? 0xFFFF : 0;
        if (p < DATA_PLACES)
            flip(&data, p);
        encode(&bits, &data, DATA, WORDS, p);
    }
    report(&bits);
    for (unsigned k = 0; k < SOME; k++) {
        draw_words(&data);
        encode(&others, &data, DATA, WORDS, k);
    }
    report_drawn(others);
}

static void codewords(void)
{
    struct test t = {.name = "block scrub, codewords"};
    for (unsigned k = 0; k < SOME; k++) {
        struct state block, read;
        draw_block(&block);
        read = block;
        scrub(&t, &read, WORDS, k);
        put_pattern(&block, no_flips);
        compare_states(&t, &read, &block, k);
    }
    report_drawn(t);
}

/* one flip, or two if the places are not the same, are undone, whichever they are, and are the pattern */
static void undone(struct test *t, const struct state *block, unsigned p, unsigned q)
{
    struct state read = *block, expected = *block;
    uint16_t flips[WORDS] = {0};
    flip_place(flips, p);
    if (q != p)
        flip_place(flips, q);
    for (unsigned r = 0; r < WORDS; r++)
        read.room[BEFORE + r] ^= flips[r];
    put_pattern(&expected, flips);
    expected.returned = q != p ? 2 : 1;
    scrub(t, &read, WORDS, 1000 * p + q);
    compare_states(t, &read, &expected, 1000 * p + q);
}

static void every_flip(void)
{
    struct test t = {.name = "block scrub, every flip on 20 blocks"};
    for (unsigned k = 0; k < 20; k++) {
        struct state block;
        draw_block(&block);
        for (unsigned p = 0; p < PLACES; p++)
            undone(&t, &block, p, p);
    }
    report_drawn(t);
}

static void two_flips(void)
{
    struct test every = {.name = "block scrub, every two flips on one block"}, others = {.name = "block scrub, two flips on random blocks"};
    struct state block;
    draw_block(&block);
    for (unsigned p = 0; p < PLACES; p++)
        for (unsigned q = 0; q < p; q++)
            undone(&every, &block, p, q);
    report_drawn(every);
    for (unsigned k = 0; k < MANY; k++) {
        unsigned p = draw() % PLACES, q = (p + 1 + draw() % (PLACES - 1)) % PLACES;
        draw_block(&block);
        undone(&others, &block, p, q);
    }
    report_drawn(others);
}

/* a test in which some blocks have to be mended and some lost */
struct split {
    struct test test;
    unsigned mended, lost;
};

/* a block with n of some places flipped, all of them different; the places change their order */
static void scrub_flipped(struct split *s, unsigned *places, unsigned count, unsigned n, uint64_t at)
{
    struct state read;
    draw_block(&read);
    draw_front(places, count, n);
    for (unsigned k = 0; k < n; k++)
        flip(&read, places[k]);
    scrub(&s->test, &read, WORDS, at);
    s->mended += read.returned == 1 || read.returned == 2;
    s->lost += read.returned == 2 << 8;
}

static void report_split(struct split *s)
{
    char name[100];
    snprintf(name, sizeof name, "%s, %u mended and %u lost", s->test.name, s->mended, s->lost);
    compare(&s->test, s->mended > 0, 1, 0);
    compare(&s->test, s->lost > 0, 1, 0);
    s->test.name = name;
    report_drawn(s->test);
}

enum { CLOSE_PLACES = 21 };

/* the data places of three rows and three columns, and their checks: flips in one row, in one column and on one diagonal, and blocks that
   are nearest to another one, are frequent there and rare elsewhere */
static void draw_close(unsigned places[CLOSE_PLACES])
{
    unsigned top = draw() % 30, left = draw() % 14;
    for (unsigned k = 0; k < 9; k++)
        *places++ = BITS * (top + k / 3) + left + k % 3;
    for (unsigned k = 0; k < 3; k++) {
        *places++ = BITS * 32 + top + k;
        *places++ = BITS * 34 + left + k;
    }
    for (unsigned k = 0; k < 5; k++)
        *places++ = BITS * 35 + top + left + k;
    *places = BITS * 37 + 15;
}

static void more_flips(void)
{
    struct split few = {.test = {.name = "block scrub, 1 to 4 flips of checks"}};
    struct split many = {.test = {.name = "block scrub, 3 to 8 flips, half of them close"}};
    unsigned places[PLACES], close[CLOSE_PLACES];
    for (unsigned p = 0; p < PLACES; p++)
        places[p] = p;
    for (unsigned k = 0; k < SOME; k++)
        scrub_flipped(&few, places + DATA_PLACES, PLACES - DATA_PLACES, 1 + draw() % 4, k);
    report_split(&few);
    for (unsigned k = 0; k < MANY; k += 2) {
        draw_close(close);
        scrub_flipped(&many, places, PLACES, 3 + draw() % 6, k);
        scrub_flipped(&many, close, CLOSE_PLACES, 3 + draw() % 6, k + 1);
    }
    report_split(&many);
}

static void random_words(void)
{
    struct test t = {.name = "block scrub, random words"};
    for (unsigned k = 0; k < SOME; k++) {
        struct state read;
        draw_words(&read);
        scrub(&t, &read, WORDS, k);
    }
    report_drawn(t);
}

/* the slice begins with a block that has one flip, so that there is something to mend for whoever looks at it */
static void lengths(void)
{
    struct test scrubs = {.name = "block scrub, every length to 80"}, encodings = {.name = "block encode, every two lengths to 80"};
    for (unsigned n = 0; n <= LONGEST; n++) {
        struct state block, read, expected;
        draw_block(&block);
        read = block;
        unsigned place = draw() % PLACES;
        flip(&read, place);
        expected = n == WORDS ? block : read;
        expected.returned = n == WORDS ? 1 : 3 << 8;
        put_pattern(&expected, no_flips);
        if (n == WORDS)
            flip_place(expected.pattern + BEFORE, place);
        scrub(&scrubs, &read, n, n);
        compare_states(&scrubs, &read, &expected, n);
        for (unsigned m = 0; m <= LONGEST; m++)
            encode(&encodings, &block, n, m, 1000 * n + m);
    }
    report_drawn(scrubs);
    report_drawn(encodings);
}

static void all(void)
{
    constants();
    patterns();
    worked_numbers();
    encodes();
    codewords();
    every_flip();
    two_flips();
    more_flips();
    random_words();
    lengths();
    report_drawn(again);
    report_drawn(plain_encoded);
    report_drawn(plain_scrubbed);
}

int main(int n, char **words)
{
    return run_tests(n, words, every_flip, all);
}
