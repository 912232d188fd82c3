/* The second program's answers as numbers, in the forms of `library.h`. */
#pragma once
#include "second.h"
#include "second_block.h"
#include "second_card.h"

static inline uint64_t verdict_number(struct answer a)
{
    return a.data | a.flips << 16 | a.number << 24 | a.trials << 28 | (uint64_t)a.blank << 32;
}

static inline uint32_t scrub_number(struct block_answer a)
{
    return a.flips | a.number << 8;
}

/* with what the call tells where nothing is refused */
static inline uint64_t image_number(struct image_answer a, uint64_t told)
{
    return (uint64_t)a.number << 32 | (a.number == 0 ? told : a.place);
}
