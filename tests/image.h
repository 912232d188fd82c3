/* Images that are drawn, sound ones and ones that break rules (docs/FORMAT.md, The card image), each with what is to be found there. */
#pragma once
#include "draw.h"
#include "second.h"
#include "second_block.h"

enum { TITLE = 0x01, GRIDS = 0x02, BLOCK = 0x03, END = 0x7F };
enum { LONGEST_IMAGE = 32768, LONGEST_TITLE = 24, LONGEST_GRIDS = 4096, MOST_DATA_FIELDS = 16 };
enum { GRID_BYTES = 8, BLOCK_WORDS = 38, BLOCK_BYTES = 76, BLOCK_PLACES = 608 };

/* the number with which an image is refused, 0 if it is sound, and one where whoever made it does not know */
enum { SOUND = 0, TOO_LONG = 3, BROKEN = 4, NOT_KNOWN = 255 };

struct image {
    uint8_t bytes[33000];
    uint32_t n, number, place, fields, starts[32];
};

/* of two breaks the first one counts */
static inline void broken_at(struct image *im, uint32_t place)
{
    if (im->number == SOUND || place < im->place)
        im->place = place;
    im->number = BROKEN;
}

static inline void add_byte(struct image *im, uint64_t byte)
{
    im->bytes[im->n++] = (uint8_t)byte;
}

static inline void add_head(struct image *im, unsigned tag, unsigned length)
{
    im->starts[im->fields++] = im->n;
    add_byte(im, tag);
    add_byte(im, length >> 8);
    add_byte(im, length);
}

/* a field with any value */
static inline void add_field(struct image *im, unsigned tag, unsigned length)
{
    add_head(im, tag, length);
    for (; length > 0; length--)
        add_byte(im, draw());
}

static inline void add_title(struct image *im, unsigned length)
{
    add_head(im, TITLE, length);
    for (; length > 0; length--)
        add_byte(im, 0x20 + draw() % 95);
}

/* an image that has a title so far */
static inline void begin(struct image *im, unsigned title)
{
    im->n = im->number = im->place = im->fields = 0;
    add_title(im, title);
}

/* clean, 1 to 7 flips, 8 flips, any word; a fourth of the codewords is the erased grid */
static inline uint64_t draw_grid(void)
{
    uint64_t which = draw() % 8, codeword = draw() % 4 == 0 ? ERASED_GRID : second_grid((uint16_t)draw());
    return which == 0 ? draw() : codeword ^ draw_places(UINT64_MAX, which < 3 ? 0 : which == 3 ? 8 : 1 + draw() % 7);
}

static inline void add_grid(struct image *im, uint64_t grid)
{
    for (unsigned r = 0; r < GRID_BYTES; r++)
        add_byte(im, grid >> 8 * r);
}

static inline void add_grids(struct image *im, unsigned n)
{
    add_head(im, GRIDS, GRID_BYTES * n);
    for (; n > 0; n--)
        add_grid(im, draw_grid());
}

/* clean, 1 to 3 flips, any words */
static inline void add_block(struct image *im)
{
    uint16_t words[BLOCK_WORDS];
    unsigned flips = draw() % 5, place = draw() % BLOCK_PLACES;
    for (unsigned k = 0; k < BLOCK_WORDS; k++)
        words[k] = (uint16_t)draw();
    if (flips < 4)
        second_block(words, words);
    for (; flips % 4 > 0; flips--) {
        words[place / 16] ^= (uint16_t)(1 << place % 16);
        place = (place + 1 + draw() % 200) % BLOCK_PLACES;
    }
    add_head(im, BLOCK, BLOCK_BYTES);
    for (unsigned k = 0; k < BLOCK_WORDS; k++) {
        add_byte(im, words[k]);
        add_byte(im, words[k] >> 8);
    }
}

static inline void add_data(struct image *im)
{
    if (draw() % 3 == 0)
        add_block(im);
    else
        add_grids(im, draw() % 6);
}

/* The rules that an image can break. Those from PAST_END to TITLE_REPEATED are broken by a field more. */
enum rule {
    PAST_END,
    UNKNOWN_TAG,
    GRIDS_LENGTH,
    BLOCK_LENGTH,
    END_LENGTH,
    TITLE_REPEATED,
    TITLE_LENGTH,
    TITLE_MISSING,
    TITLE_BYTE,
    SEVENTEENTH,
    BEHIND_END,
    NO_END,
    CUT,
    RULES
};

/* the field that breaks the rule; but for one past the end it is as long as it says, so that all behind it is in order */
static inline void add_wrong(struct image *im, enum rule rule)
{
    static const uint8_t unknown[8] = {0x00, 0x04, 0x08, 0x7E, 0x80, 0x82, 0xFE, 0xFF};
    static const uint16_t blocks[8] = {0, 8, 38, 75, 77, 80, 152, 256 + BLOCK_BYTES};
    broken_at(im, im->n);
    if (rule == PAST_END)
        add_head(im, GRIDS, LONGEST_GRIDS);
    else if (rule == UNKNOWN_TAG)
        add_field(im, unknown[draw() % 8], draw() % 2 * GRID_BYTES);
    else if (rule == GRIDS_LENGTH)
        add_field(im, GRIDS, GRID_BYTES * (draw() % 4) + 1 + draw() % 7);
    else if (rule == BLOCK_LENGTH)
        add_field(im, BLOCK, blocks[draw() % 8]);
    else if (rule == END_LENGTH)
        add_field(im, END, draw() % 2 == 0 ? 256 : 1 + draw() % 8);
    else
        add_title(im, 1 + draw() % LONGEST_TITLE);
}

static inline int in(uint32_t rules, enum rule rule)
{
    return (rules >> rule & 1) != 0;
}

static inline void draw_title(struct image *im, uint32_t rules)
{
    static const uint8_t bad[8] = {0x00, 0x0A, 0x1F, 0x7F, 0x80, 0xA0, 0xFE, 0xFF};
    unsigned length = in(rules, TITLE_LENGTH) ? draw() % 2 * (25 + draw() % 9) : 1 + draw() % LONGEST_TITLE;
    begin(im, length);
    if (in(rules, TITLE_BYTE) && length > 0)
        im->bytes[3 + draw() % length] = bad[draw() % 8];
    if (in(rules, TITLE_MISSING))
        im->n = im->fields = 0;
    if (in(rules, TITLE_LENGTH) || in(rules, TITLE_BYTE) || in(rules, TITLE_MISSING))
        broken_at(im, 0);
}

/* An image that breaks these rules, bit r for rule r, and no other. Where two of them would make up for each other, one is left out. */
static inline void draw_image(struct image *im, uint32_t rules)
{
    if (in(rules, TITLE_MISSING))
        rules &= ~(1u << TITLE_REPEATED);
    draw_title(im, rules);
    unsigned fields = in(rules, SEVENTEENTH) ? MOST_DATA_FIELDS + 1 + draw() % 3 : draw() % 4 == 0 ? MOST_DATA_FIELDS : draw() % 5;
    for (unsigned k = 0; k <= fields; k++) {
        for (enum rule r = PAST_END; r <= TITLE_REPEATED; r++)
            if (in(rules, r) && draw() % (fields + 1 - k) == 0) {
                add_wrong(im, r);
                rules &= ~(1u << r);
            }
        if (k < fields) {
            if (k == MOST_DATA_FIELDS)
                broken_at(im, im->n);
            add_data(im);
        }
    }

    if (in(rules, NO_END))
        broken_at(im, im->n);
    else
        add_head(im, END, 0);
    if (in(rules, BEHIND_END) && !in(rules, NO_END) && !in(rules, CUT)) {
        broken_at(im, im->n);
        if (draw() % 2 == 0)
            add_head(im, END, 0);
        else
            add_field(im, (unsigned)draw(), draw() % 20);
    }
    if (in(rules, CUT) && im->n > 0) {
        im->n = (uint32_t)(draw() % im->n);
        unsigned last = 0;
        while (last + 1 < im->fields && im->starts[last + 1] <= im->n)
            last++;
        broken_at(im, im->starts[last]);
    }
}

/* some bytes set to any value, half of them in a field's tag or length */
static inline void change_bytes(struct image *im)
{
    for (uint64_t k = draw() % 3 + 1; k > 0; k--) {
        uint64_t head = im->starts[draw() % im->fields] + draw() % 3;
        im->bytes[draw() % 2 == 0 ? head : draw() % im->n] = (uint8_t)(draw() % 2 == 0 ? draw() : draw() % 4);
    }
    im->number = NOT_KNOWN;
}

static inline void draw_bytes(struct image *im)
{
    begin(im, 1 + draw() % 4);
    if (draw() % 2 == 0)
        im->n = 0;
    for (uint64_t n = draw() % 40; n > 0; n--)
        add_byte(im, draw() % 2 == 0 ? draw() : draw() % 4);
    im->number = NOT_KNOWN;
}

/* A sound image of this length but for the length, if that is not allowed: a title that makes it up to a multiple of eight, grids fields
   that are as full as they can be, and blocks. The grids are some few again and again. */
static inline void draw_long_image(struct image *im, uint32_t n, unsigned grids_fields, unsigned blocks)
{
    enum { FEW = 64 };
    uint64_t few[FEW];
    for (unsigned k = 0; k < FEW; k++)
        few[k] = draw_grid();
    uint32_t heads_and_blocks = 3 * (grids_fields + blocks + 2) + BLOCK_BYTES * blocks;
    begin(im, 1 + (n - heads_and_blocks - 1) % GRID_BYTES);
    uint32_t left = (n - heads_and_blocks) - (im->n - 3);
    for (; grids_fields > 0; grids_fields--) {
        uint32_t length = left < LONGEST_GRIDS ? left : LONGEST_GRIDS;
        add_head(im, GRIDS, length);
        for (left -= length; length > 0; length -= GRID_BYTES)
            add_grid(im, few[draw() % FEW]);
    }
    for (; blocks > 0; blocks--)
        add_block(im);
    add_head(im, END, 0);
    im->number = n > LONGEST_IMAGE ? TOO_LONG : SOUND;
}
