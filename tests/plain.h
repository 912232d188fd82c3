/* The grid, the block and the card image in C for speed, with tables of at most 16 entries and in the forms of `library.h`: the C whose
   cost is counted beside the library's. The second program checks it. */
#pragma once
#include <stdint.h>

/* the codeword of any of the 65,536 data values; the encoder refuses the last one */
uint64_t plain_grid(uint16_t data);
uint32_t plain_encode(uint16_t data, uint64_t *grid);
void plain_decode(const uint64_t *words, uint64_t n, uint64_t *verdicts, uint64_t *repaired, uint64_t *patterns);
uint32_t plain_scrub(uint64_t *page, uint64_t n, uint32_t tally[6], uint64_t *pattern);

/* Grids as bytes, wherever they stand. What a scrub finds is added to the tally, and the pattern stays as it is if no grid is mended; where
   a grid is lost, its data is 0 and its flips 255, and where it is blank 65,535 and its flips plus 128. */
void plain_scrub_bytes(uint8_t *grids, uint64_t n, uint32_t tally[6], uint64_t *pattern);
void plain_encode_bytes(const uint16_t *data, uint64_t n, uint8_t *grids);
void plain_decode_bytes(const uint8_t *grids, uint64_t n, uint16_t *data, uint8_t *flips);

uint32_t plain_block_encode(const uint16_t *values, uint64_t n, uint16_t *words, uint64_t m);
uint32_t plain_block_scrub(uint16_t *restrict words, uint64_t n, uint16_t pattern[restrict 38]);

uint64_t plain_image_check(const uint8_t *image, uint64_t n);
uint64_t plain_image_scrub(uint8_t *image, uint64_t n, uint32_t tallies[11], uint64_t *pattern);
uint64_t plain_image_write(const uint8_t *title, uint64_t t, const uint16_t *numbers, uint64_t k, uint8_t *image, uint64_t n);
uint64_t plain_image_read(const uint8_t *image, uint64_t n, uint8_t *title, uint64_t t, uint16_t *data, uint64_t d, uint8_t *flips,
                          uint64_t f);
uint64_t plain_image_lines(uint8_t *image, uint64_t n, uint8_t *text, uint64_t m);
