/* One bit of one answer flipped, to see that a comparison notices it; and how the test programs that can do so are called:

     PROGRAM            runs all tests;
     PROGRAM SEED       runs them on others of the words, pages, blocks or images that are drawn; SEED is decimal;
     PROGRAM SIDE BIT   runs a part of them with that bit of one answer of that side flipped: one has to fail. SIDE is `library` or
                        `second program`; the program says which bits its answers have. */
#pragma once
#include "draw.h"

int strcmp(const char *, const char *);

/* what is flipped in one answer of either side: its bits 0 to 63, 64 to 127, and so on */
enum { FLIP_WORDS = 4 };
static uint64_t flip_library[FLIP_WORDS], flip_second[FLIP_WORDS];

/* Reads `SIDE BIT` behind a program's name. It returns 0 if SIDE is neither `library` nor `second program`. */
static inline int read_flip(char **words)
{
    uint64_t *flips = strcmp(words[1], "library") == 0 ? flip_library : strcmp(words[1], "second program") == 0 ? flip_second : 0;
    if (flips == 0)
        return 0;
    unsigned long long bit = strtoull(words[2], 0, 10);
    flips[bit / 64 % FLIP_WORDS] = (uint64_t)1 << bit % 64;
    return 1;
}

/* All that `main` does, where `SIDE BIT` is for the tests of `one`. It returns the status: 1 if SIDE is none. */
static inline int run_tests(int n, char **words, void one(void), void all(void))
{
    if (n == 3) {
        if (!read_flip(words))
            return 1;
        one();
    } else {
        read_seed(n, words);
        all();
    }
    return 0;
}
