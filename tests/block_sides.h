/* The calls on a block on all sides: the library, the second program and the plain version are lent the same, and what they return and
   leave is compared. */
#pragma once
#include "draw.h"
#include "flip.h"
#include "forms.h"
#include "library.h"
#include "plain.h"

void *memcpy(void *, const void *, unsigned long);

enum { DATA = 32, WORDS = 38, BITS = 16, PLACES = 608, DATA_PLACES = 512 };

/* A slice and a pattern each stand in the middle of a room, the rest of which nothing may touch. */
enum { BEFORE = 3, LONGEST = 80, ROOM = BEFORE + LONGEST + BEFORE, PATTERN_ROOM = BEFORE + WORDS + BEFORE };

struct state {
    uint16_t room[ROOM], pattern[PATTERN_ROOM];
    uint32_t returned;
};

static inline void draw_words(struct state *s)
{
    for (unsigned k = 0; k < ROOM; k++)
        s->room[k] = (uint16_t)draw();
    for (unsigned k = 0; k < PATTERN_ROOM; k++)
        s->pattern[k] = (uint16_t)draw();
    s->returned = 0;
}

static inline void draw_block(struct state *s)
{
    draw_words(s);
    second_block(s->room + BEFORE, s->room + BEFORE);
}

static inline void flip_place(uint16_t *words, unsigned place)
{
    words[place / BITS] ^= (uint16_t)(1 << place % BITS);
}

static inline void flip(struct state *s, unsigned place)
{
    flip_place(s->room + BEFORE, place);
}

static inline void put_pattern(struct state *s, const uint16_t pattern[WORDS])
{
    memcpy(s->pattern + BEFORE, pattern, WORDS * sizeof *pattern);
}

/* the pattern of a block that is clean or refused */
static const uint16_t no_flips[WORDS];

static inline void compare_states(struct test *t, const struct state *a, const struct state *b, uint64_t at)
{
    compare(t, a->returned, b->returned, at);
    for (unsigned k = 0; k < ROOM; k++)
        compare(t, a->room[k], b->room[k], at);
    for (unsigned k = 0; k < PATTERN_ROOM; k++)
        compare(t, a->pattern[k], b->pattern[k], at);
}

/* the first answer with its flips: those in its first four words, those in the number returned, and those in the pattern's first four */
static inline struct state flipped(struct state s, uint64_t flips[FLIP_WORDS])
{
    for (unsigned k = 0; k < 4; k++) {
        s.room[BEFORE + k] ^= (uint16_t)(flips[0] >> BITS * k);
        s.pattern[BEFORE + k] ^= (uint16_t)(flips[2] >> BITS * k);
    }
    s.returned ^= (uint32_t)flips[1];
    flips[0] = flips[1] = flips[2] = 0;
    return s;
}

static inline void compare_answers(struct test *t, struct state library, struct state second, uint64_t at)
{
    library = flipped(library, flip_library);
    second = flipped(second, flip_second);
    compare_states(t, &library, &second, at);
}

static struct test again = {.name = "block scrub, a second time"};
static struct test plain_encoded = {.name = "the plain version's block encode, the same data"};
static struct test plain_scrubbed = {.name = "the plain version's block scrub, the same blocks"};

/* all three encode the same data, which stays as it is */
static inline void encode(struct test *t, const struct state *data, uint64_t n, uint64_t m, uint64_t at)
{
    struct state values = *data, library, second, plainly;
    draw_words(&library);
    second = plainly = library;
    library.returned = block_encode(values.room + BEFORE, n, library.room + BEFORE, m);
    second.returned = second_block_encode(data->room + BEFORE, n, second.room + BEFORE, m);
    plainly.returned = plain_block_encode(data->room + BEFORE, n, plainly.room + BEFORE, m);
    compare_answers(t, library, second, at);
    compare_states(t, &values, data, at);
    compare_states(&plain_encoded, &plainly, &second, at);
}

/* all three scrub the same slice; what the library made of it is left in its state */
static inline void scrub(struct test *t, struct state *library, uint64_t n, uint64_t at)
{
    struct state second = *library, plainly = *library;
    library->returned = block_scrub(library->room + BEFORE, n, library->pattern + BEFORE);
    struct block_answer a = second_block_scrub(second.room + BEFORE, n);
    second.returned = scrub_number(a);
    put_pattern(&second, a.pattern);
    plainly.returned = plain_block_scrub(plainly.room + BEFORE, n, plainly.pattern + BEFORE);
    compare_answers(t, *library, second, at);
    compare_states(&plain_scrubbed, &plainly, &second, at);

    /* a second scrub finds clean what was clean or mended, refuses what was refused, both without flips, and alters nothing */
    struct state twice = *library, expected = *library;
    twice.returned = block_scrub(twice.room + BEFORE, n, twice.pattern + BEFORE);
    if (expected.returned < 1 << 8)
        expected.returned = 0;
    put_pattern(&expected, no_flips);
    compare_states(&again, &twice, &expected, at);
}
