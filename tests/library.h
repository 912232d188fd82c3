/* What the archives of the crates `harness`, `harness_page` and `harness_card` export. A slice is a pointer and then a length. */
#pragma once
#include <stdint.h>

/* It returns the refusal's number, 7 for 65,535, or 0 if there is none. The grid is always written: it is 0 where the number is refused. */
uint32_t grid_encode(uint16_t value, uint64_t *grid);

uint64_t grid_there_and_back(uint64_t w);
uint8_t grid_row(uint64_t w, uint64_t r);
uint32_t grid_radius(void);
uint32_t grid_length(void);
uint32_t grid_distance(void);

/* A verdict is one number: the data, from bit 16 on the flips, from bit 24 on the refusal's number (0 none, 1 lost), from bit 28 on the
   trials made, 1 or 2, which are 2 if the word is lost, and bit 32 if the grid is blank, which has no data: 0. A pattern has ones in the
   places that were flipped, and is 0 if none was or the word is lost. The four slices have one length; for others nothing is done. */
void grid_decode(const uint64_t *words, uint64_t n, uint64_t *verdicts, uint64_t m, uint64_t *repaired, uint64_t k, uint64_t *patterns,
                 uint64_t p);

/* It returns the refusal's number, 3, or 0 if there is none. The tally has six places: grids, clean, blank, mended, lost, flips; with any
   other length 255 is returned and nothing is done. The pattern is that of the last mended grid, 0 if none is mended; where the page is
   refused it is not touched. */
uint32_t page_scrub(uint64_t *page, uint64_t n, uint32_t *tally, uint64_t m, uint64_t *pattern);

uint32_t block_radius(void);
uint32_t block_length(void);
uint32_t block_distance(void);

/* The words of the block of 32 data words, into 38 words. It returns the refusal's number, 3, or 0 if there is none. */
uint32_t block_encode(const uint16_t *values, uint64_t n, uint16_t *words, uint64_t m);

/* A block scrubbed in place. It returns the flips, and from bit 8 on the refusal's number (0 none, 2 lost, 3 another length than 38). The
   pattern is always written, and all zero unless the block is mended. */
uint32_t block_scrub(uint16_t *words, uint64_t n, uint16_t pattern[38]);

/* The calls on an image return the refusal's number (0 none, 3, 4, 6, 7) from bit 32 on. Below it: for 4 the place of the break, for 3, 6
   and 7 zero, for 0 what is said here. */

/* The grids, and from bit 16 on the blocks. */
uint64_t image_check(const uint8_t *image, uint64_t n);

/* Zero. The tallies have eleven places: grids, clean, blank, mended, lost and flips of the grids, then all, clean, mended, lost and flips
   of the blocks; with any other length 255 is returned from bit 32 on and nothing is done. The pattern is that of the last mended grid, in
   the order of the grids over all fields, 0 if none is mended; where the image is refused it is not touched. */
uint64_t image_scrub(uint8_t *image, uint64_t n, uint32_t *tallies, uint64_t m, uint64_t *pattern);

/* The bytes written. Where one of the numbers is 65,535: 7, behind 3 and 4 and before 6. */
uint64_t image_write(const uint8_t *title, uint64_t t, const uint16_t *numbers, uint64_t k, uint8_t *image, uint64_t n);

/* The title's length, and from bit 16 on the grids. A blank grid has data 65,535, and 128 more than its flips. */
uint64_t image_read(const uint8_t *image, uint64_t n, uint8_t *title, uint64_t t, uint16_t *data, uint64_t d, uint8_t *flips, uint64_t f);

/* The bytes of the lines. The image is scrubbed, and what the bench prints of it, three lines or the one of a refusal, is laid over the
   front of the text; what is behind stays as it was. A text of fewer than 219 bytes is refused with 6, before all else, and neither it nor
   the image is touched. */
uint64_t image_lines(uint8_t *image, uint64_t n, uint8_t *text, uint64_t m);
