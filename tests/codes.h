/* The codes of the fault campaign, the grid, the block, and the grid that is erased: how a word of each is written, answered by both sides
   and printed, and what is promised of it. */
#pragma once
#include "draw.h"
#include "flip.h"
#include "forms.h"
#include "library.h"
#include "text.h"

void *memcpy(void *, const void *, unsigned long);

/* how many words are answered at a time, at most; a block's data words, words and places */
enum { SLICE = 1000, DATA = 32, WORDS = 38, PLACES = 608 };

/* A grid or a block. The lowest byte stands first, so place p of either is bit p mod 8 of byte p/8. */
union bits {
    uint64_t grid;
    uint16_t block[WORDS];
    uint8_t bytes[2 * WORDS];
};

/* a word as it was written, its flips and the word as it is read, and what is returned for it if its flips are undone, but for the trials */
struct damaged {
    union bits written, flips, read;
    uint64_t undone;
};

/* what a side returned and left: a verdict and the repaired grid, or the number of a scrub and the block; and the pattern */
struct said {
    uint64_t returned;
    union bits left, pattern;
};

/* Each row of its table is for a number of flips. Up to `every` flips the row has every set of places. Up to `undone` flips all have to be
   undone, and from there up to `refused` refused. The trials are these bits of what is returned, none for a block; after two they are `two`.
   Of what is flipped on a side the first number is for what is returned and left, and the third for the pattern. */
struct code {
    const char *name, *promise;
    const unsigned *flips;
    unsigned rows, places, every, undone, refused;
    uint64_t lost, trials, two, *flip_library, *flip_second;
    uint64_t (*write)(union bits *, unsigned flips);
    void (*answer)(const struct damaged *, uint64_t n, struct said *library, struct said *second);
    void (*print)(const union bits *);
};

/* draws data and writes it; what is returned, but for the trials, if so many flips are undone */
static uint64_t write_grid(union bits *written, unsigned flips)
{
    uint16_t data = draw_number();
    written->grid = second_grid(data);
    return verdict_number((struct answer){.data = data, .flips = flips});
}

static uint64_t write_erased(union bits *written, unsigned flips)
{
    written->grid = ERASED_GRID;
    return verdict_number((struct answer){.blank = 1, .flips = flips});
}

static uint64_t write_block(union bits *written, unsigned flips)
{
    for (unsigned k = 0; k < DATA; k++)
        written->block[k] = (uint16_t)draw();
    second_block(written->block, written->block);
    return scrub_number((struct block_answer){.flips = flips});
}

static void answer_grids(const struct damaged *words, uint64_t n, struct said *library, struct said *second)
{
    static uint64_t read[SLICE], verdicts[SLICE], repaired[SLICE], patterns[SLICE];
    for (uint64_t k = 0; k < n; k++)
        read[k] = words[k].read.grid;
    grid_decode(read, n, verdicts, n, repaired, n, patterns, n);
    for (uint64_t k = 0; k < n; k++) {
        struct answer a = second_decode(words[k].read.grid);
        library[k] = (struct said){verdicts[k], {.grid = repaired[k]}, {.grid = patterns[k]}};
        second[k] = (struct said){verdict_number(a), {.grid = a.repaired}, {.grid = a.pattern}};
    }
}

/* the word stands where the pattern is written, so that it has to be written even if it is zero */
static void answer_blocks(const struct damaged *words, uint64_t n, struct said *library, struct said *second)
{
    for (uint64_t k = 0; k < n; k++) {
        library[k].left = library[k].pattern = second[k].left = words[k].read;
        library[k].returned = block_scrub(library[k].left.block, WORDS, library[k].pattern.block);
        struct block_answer a = second_block_scrub(second[k].left.block, WORDS);
        second[k].returned = scrub_number(a);
        memcpy(second[k].pattern.block, a.pattern, sizeof a.pattern);
    }
}

static void print_grid(const union bits *b)
{
    print_grids(&b->grid, 1);
}

static void print_block(const union bits *b)
{
    print_words(b->block, WORDS);
}

/* Two codewords of a grid differ in an even number of places, so an odd number of flips can end 7 places from another one and an even
   number only 6. That makes an odd number wrong some eight times as often as the even ones beside it: the table has them in pairs. */
static const unsigned grid_flips[] = {0, 1, 2, 3, 4, 5, 6, 7, 8, 9, 10, 11, 12, 13, 14, 15, 16, 17, 24, 25, 32, 33};
static const unsigned block_flips[] = {0, 1, 2, 3, 4, 5, 6, 7, 8};
static const unsigned erased_flips[] = {0, 1, 2, 3, 4, 5, 6, 7, 8, 9, 10};

static const struct code grid = {
    .name = "grid",
    .promise = "up to 7 flips undone, 8 refused",
    .flips = grid_flips,
    .rows = sizeof grid_flips / sizeof *grid_flips,
    .places = 64,
    .every = 3,
    .undone = 7,
    .refused = 8,
    .lost = 1 << 24 | 2 << 28,
    .trials = (uint64_t)15 << 28,
    .two = 2 << 28,
    .flip_library = &flip_library[0],
    .flip_second = &flip_second[0],
    .write = write_grid,
    .answer = answer_grids,
    .print = print_grid,
};

static const struct code block = {
    .name = "block",
    .promise = "up to 2 flips undone",
    .flips = block_flips,
    .rows = sizeof block_flips / sizeof *block_flips,
    .places = PLACES,
    .every = 2,
    .undone = 2,
    .refused = 2,
    .lost = 2 << 8,
    .flip_library = &flip_library[1],
    .flip_second = &flip_second[1],
    .write = write_block,
    .answer = answer_blocks,
    .print = print_block,
};

/* what is promised of a grid holds of one that is erased, if blank is what comes back */
static inline struct code erased_grid(void)
{
    struct code erased = grid;
    erased.name = "erased grid";
    erased.flips = erased_flips;
    erased.rows = sizeof erased_flips / sizeof *erased_flips;
    erased.write = write_erased;
    return erased;
}
