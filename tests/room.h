/* What is lent to a call on an image stands one behind the other in one room: the pattern, then the slices. Around each are bytes that
   nothing may touch. */
#pragma once
#include "draw.h"
#include "flip.h"

void *memcpy(void *, const void *, unsigned long);
int memcmp(const void *, const void *, unsigned long);

enum { AROUND = 16, ROOM = 65536, TALLIES = 11 };

/* how many places each slice has, in the order in which they stand */
struct lengths {
    uint64_t tallies, data, flips, title, image, text;
};

struct state {
    struct lengths lengths;
    uint64_t returned, used;
    _Alignas(uint64_t) uint8_t room[ROOM];
};

static inline uint64_t *pattern_in(struct state *s)
{
    return (uint64_t *)(s->room + AROUND);
}

static inline uint32_t *tallies_in(struct state *s)
{
    return (uint32_t *)((uint8_t *)(pattern_in(s) + 1) + AROUND);
}

static inline uint16_t *data_in(struct state *s)
{
    return (uint16_t *)((uint8_t *)(tallies_in(s) + s->lengths.tallies) + AROUND);
}

static inline uint8_t *flips_in(struct state *s)
{
    return (uint8_t *)(data_in(s) + s->lengths.data) + AROUND;
}

static inline uint8_t *title_in(struct state *s)
{
    return flips_in(s) + s->lengths.flips + AROUND;
}

static inline uint8_t *image_in(struct state *s)
{
    return title_in(s) + s->lengths.title + AROUND;
}

static inline uint8_t *text_in(struct state *s)
{
    return image_in(s) + s->lengths.image + AROUND;
}

/* a room of these lengths, with any bytes in it */
static inline void draw_state(struct state *s, struct lengths lengths)
{
    s->lengths = lengths;
    s->returned = 0;
    s->used = (uint64_t)(text_in(s) - s->room) + lengths.text + AROUND;
    for (uint64_t k = 0; k < s->used; k += sizeof(uint64_t)) {
        uint64_t any = draw();
        memcpy(s->room + k, &any, sizeof any);
    }
}

/* only the part of the room that is in use */
static inline void copy_state(struct state *to, const struct state *from)
{
    memcpy(to, from, __builtin_offsetof(struct state, room) + from->used);
}

static inline void compare_states(struct test *t, const struct state *a, const struct state *b, uint64_t at)
{
    compare(t, a->returned, b->returned, at);
    compare(t, memcmp(a->room, b->room, a->used) == 0, 1, at);
}

static inline void flip_bytes(uint8_t *bytes, uint64_t flips)
{
    for (unsigned k = 0; k < 8 && flips != 0; k++)
        bytes[k] ^= (uint8_t)(flips >> 8 * k);
}

/* what is flipped, once: in the number returned, in the first bytes of the image, and in the pattern */
static inline void flip(struct state *s, uint64_t flips[FLIP_WORDS])
{
    s->returned ^= flips[0];
    flip_bytes(image_in(s), flips[1]);
    *pattern_in(s) ^= flips[2];
    flips[0] = flips[1] = flips[2] = 0;
}

/* the same in the first bytes of the text */
static inline void flip_text(struct state *s, uint64_t flips[FLIP_WORDS])
{
    flip_bytes(text_in(s), flips[3]);
    flips[3] = 0;
}
