/* The second program: the rules (docs/FORMAT.md) once more, in C, written from the rules alone and from no line of the library. */
#pragma once
#include <stdint.h>

/* Flash comes erased to all ones. That grid is the codeword of 65,535, and that number is never written. */
static const uint64_t ERASED_GRID = UINT64_MAX;
enum { ERASED_NUMBER = 65535 };

/* The codeword of a data value, of any of the 65,536, place by place. */
uint64_t second_grid(uint16_t data);

/* The grid of a number that is to be stored. It returns the refusal's number, 7, or 0 if there is none; on refusal the grid is 0. */
uint32_t second_encode(uint16_t number, uint64_t *grid);

/* In how many places two 64-bit numbers differ. */
unsigned second_distance(uint64_t a, uint64_t b);

/* In how many places a word differs from the codeword of each of the 65,536 data values. They stand until the next call. */
const uint8_t *second_counts(uint64_t word);

/* The candidate of trial 1 or 2 on a word. It returns 1 if there is one, and 0 if there is none. */
int second_candidate(uint64_t word, unsigned trial, uint64_t *candidate);

/* What a word read gives: the refusal's number (0 where nothing is refused, 1 lost), whether it is blank, the data (0 if it is blank or
   refused), the flips (0 on refusal), the trials made, the repaired grid, and the pattern of the flips (0 if there are none, and on
   refusal). */
struct answer {
    uint32_t number, blank, data, flips, trials;
    uint64_t repaired, pattern;
};

/* The answer by the definition: every codeword is looked at. No word has two nearest codewords within the radius, or two candidates in one
   trial, or a codeword within the radius that neither trial gives: where one has, a line is printed that begins with FAILED, and the program
   ends with status 1. */
struct answer second_decode(uint64_t word);

/* 7 and 3, the radius and the most that 2w + s is of a candidate. `ties` sets others, to see that what no word has is looked for. */
extern unsigned second_radius, second_most_paid;

/* One grid more in a tally, which is grids, clean, blank, mended, lost and flips. The pattern stays as it is unless the grid is mended. */
void second_count(struct answer a, uint32_t tally[6], uint64_t *pattern);

/* A page scrub. It returns the refusal's number, 3, or 0 if there is none; the pattern is that of the last mended grid, 0 if there is none.
   On refusal nothing is written. */
uint32_t second_scrub(uint64_t *page, uint64_t n, uint32_t tally[6], uint64_t *pattern);
