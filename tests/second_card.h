/* The second program's card image: the rules (docs/FORMAT.md) once more, in C, written from the rules alone and from no line of the
   library. */
#pragma once
#include <stdint.h>

/* What a call on an image returns: the refusal's number (0 where nothing is refused, 3, 4, 6 or 7) and the place of the break (0 where
   there is none); and, where nothing is refused, what the call tells of the title's length, the grids, the blocks and the bytes written. */
struct image_answer {
    uint32_t number, place, title, grids, blocks, written;
};

/* It tells the grids and the blocks. */
struct image_answer second_image_check(const uint8_t *image, uint64_t n);

/* Eleven numbers: grids, clean, blank, mended, lost and flips of the grids, then all, clean, mended, lost and flips of the blocks; and the
   pattern of the last mended grid, 0 if there is none. On refusal nothing is written. */
struct image_answer second_image_scrub(uint8_t *image, uint64_t n, uint32_t tallies[11], uint64_t *pattern);

/* It tells the bytes written. */
struct image_answer second_image_write(const uint8_t *title, uint64_t t, const uint16_t *numbers, uint64_t k, uint8_t *image, uint64_t n);

/* It tells the title's length and the grids. */
struct image_answer second_image_read(const uint8_t *image, uint64_t n, uint8_t *title, uint64_t t, uint16_t *data, uint64_t d,
                                      uint8_t *flips, uint64_t f);

/* What the bench program prints for an image, into this room, which is large enough for any. The image is scrubbed. It returns how many
   bytes are printed; that would be LONGEST_LINES for a title of 24 bytes and eleven numbers of ten digits. */
enum { BENCH_TEXT = 300, LONGEST_LINES = 219 };
uint32_t second_bench(uint8_t *image, uint64_t n, char text[BENCH_TEXT]);
