/* The second program's block: the rules (docs/FORMAT.md) once more, in C, written from the rules alone and from no line of the library. */
#pragma once
#include <stdint.h>

/* The block of 32 data words, place by place. The data words may be the block's own. */
void second_block(const uint16_t values[32], uint16_t words[38]);

/* The same for slices of any length. It returns the refusal's number, 3, or 0 if there is none. */
uint32_t second_block_encode(const uint16_t *values, uint64_t n, uint16_t *words, uint64_t m);

/* What a scrub returns: the refusal's number (0 where nothing is refused, 2 lost, 3 a length not allowed), the flips (0 on refusal), and
   their pattern (0 unless mended). */
struct block_answer {
    uint32_t number, flips;
    uint16_t pattern[38];
};

/* A block scrub by the definition: every pattern of up to two flips is in a table. Where two codewords are nearest, within the radius, it
   prints a line that begins with FAILED, and the program ends with status 1: no word has such a tie. */
struct block_answer second_block_scrub(uint16_t *words, uint64_t n);

/* 1. `ties` sets it to 0, to see that a tie is found: the system parity is left out, and codewords may be four places apart. */
extern unsigned second_block_system;

/* How many different syndromes other than 0 the patterns of one and two flips have: as many as there are patterns, if each can be told
   from all others and from no flip. */
uint32_t second_block_syndromes(void);
