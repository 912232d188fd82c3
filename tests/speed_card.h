/* The calls on a card image for `speed.c`: the images, and each call many times. */
#pragma once
#include "draw.h"
#include "library.h"
#include "plain.h"

void *memcpy(void *, const void *, unsigned long);

enum { TITLE = 0x01, GRIDS = 0x02, BLOCK = 0x03, END = 0x7F };
enum { IMAGE = 32768, TITLE_BYTES = 10, FIELD_GRIDS = 512, BLOCK_BYTES = 76, TALLIES = 11 };

/* the grids of the longest image with such a title: they stand in eight fields, all of them full but for the last */
enum { IMAGE_GRIDS = 4091 };

/* what is written at a time, and the bytes of its image */
enum { WRITTEN_NUMBERS = 512, WRITTEN = 9 + TITLE_BYTES + 8 * WRITTEN_NUMBERS };

static const uint8_t title[] = "Mira Stern";
static uint8_t image[IMAGE], scrubbed[IMAGE];
static uint32_t image_bytes, image_grids;

/* what is written; and what is read back */
static uint16_t numbers[WRITTEN_NUMBERS], read_numbers[WRITTEN_NUMBERS];
static uint8_t read_title[TITLE_BYTES], read_flips[WRITTEN_NUMBERS];

/* the tallies and the pattern of a scrub, and the sum of what the calls returned */
static uint32_t tally[TALLIES], returned;
static uint64_t pattern;

/* the places that are flipped in every grid, and how many more are drawn for each */
static uint64_t flips;
static unsigned drawn_flips;

static uint64_t draw_flips(void)
{
    return flips | draw_places(~flips, drawn_flips);
}

/* of the first 34,937 none is 65,535 */
static uint16_t value(uint32_t k)
{
    return (uint16_t)(k * 40503);
}

static void add_field(uint8_t tag, uint32_t length, const void *bytes)
{
    const uint8_t head[] = {tag, (uint8_t)(length >> 8), (uint8_t)length};
    memcpy(image + image_bytes, head, sizeof head);
    memcpy(image + image_bytes + sizeof head, bytes, length);
    image_bytes += (uint32_t)sizeof head + length;
}

static void add_grids(uint32_t n)
{
    uint64_t grids[FIELD_GRIDS];
    for (uint32_t k = 0; k < n; k++)
        grids[k] = plain_grid(value(image_grids++)) ^ draw_flips();
    add_field(GRIDS, n * (uint32_t)sizeof *grids, grids);
}

static void begin_image(void)
{
    image_bytes = image_grids = 0;
    add_field(TITLE, TITLE_BYTES, title);
}

static void prepare_longest(void)
{
    begin_image();
    while (image_grids < IMAGE_GRIDS)
        add_grids(IMAGE_GRIDS - image_grids < FIELD_GRIDS ? IMAGE_GRIDS - image_grids : FIELD_GRIDS);
    add_field(END, 0, "");
}

/* sixteen data fields: eight of two grids, and behind each of them a block of zeros */
static void prepare_sixteen(void)
{
    static const uint8_t block_of_zeros[BLOCK_BYTES];
    begin_image();
    for (unsigned k = 0; k < 8; k++) {
        add_grids(2);
        add_field(BLOCK, BLOCK_BYTES, block_of_zeros);
    }
    add_field(END, 0, "");
}

static void prepare_written(void)
{
    for (uint32_t k = 0; k < WRITTEN_NUMBERS; k++)
        numbers[k] = value(k);
    begin_image();
    add_grids(WRITTEN_NUMBERS);
    add_field(END, 0, "");
}

static void library_image_scrubbing(uint32_t n)
{
    for (; n >= IMAGE_GRIDS; n -= IMAGE_GRIDS)
        returned += (uint32_t)(image_scrub(image, image_bytes, tally, TALLIES, &pattern) >> 32);
}

static void plain_image_scrubbing(uint32_t n)
{
    for (; n >= IMAGE_GRIDS; n -= IMAGE_GRIDS)
        returned += (uint32_t)(plain_image_scrub(image, image_bytes, tally, &pattern) >> 32);
}

/* A copy of the image is scrubbed, so that the flips are there the next time. The copy, an instruction or two for a grid, is counted on both
   sides; that of libc would be another on each machine. */
static void copy_image(void)
{
    for (unsigned k = 0; k < IMAGE; k++)
        scrubbed[k] = image[k];
}

static void library_image_mending(uint32_t n)
{
    for (; n >= IMAGE_GRIDS; n -= IMAGE_GRIDS) {
        copy_image();
        returned += (uint32_t)(image_scrub(scrubbed, image_bytes, tally, TALLIES, &pattern) >> 32);
    }
}

static void plain_image_mending(uint32_t n)
{
    for (; n >= IMAGE_GRIDS; n -= IMAGE_GRIDS) {
        copy_image();
        returned += (uint32_t)(plain_image_scrub(scrubbed, image_bytes, tally, &pattern) >> 32);
    }
}

static void library_image_checking(uint32_t n)
{
    for (; n > 0; n--)
        returned += (uint32_t)image_check(image, image_bytes);
}

static void plain_image_checking(uint32_t n)
{
    for (; n > 0; n--)
        returned += (uint32_t)plain_image_check(image, image_bytes);
}

/* An image written whole counts as its numbers, one read back as its grids. */
static void library_image_writing(uint32_t n)
{
    for (; n >= WRITTEN_NUMBERS; n -= WRITTEN_NUMBERS)
        if (image_write(title, TITLE_BYTES, numbers, WRITTEN_NUMBERS, image, WRITTEN) == WRITTEN)
            returned += WRITTEN_NUMBERS;
}

static void plain_image_writing(uint32_t n)
{
    for (; n >= WRITTEN_NUMBERS; n -= WRITTEN_NUMBERS)
        if (plain_image_write(title, TITLE_BYTES, numbers, WRITTEN_NUMBERS, image, WRITTEN) == WRITTEN)
            returned += WRITTEN_NUMBERS;
}

static void library_image_reading(uint32_t n)
{
    for (; n >= WRITTEN_NUMBERS; n -= WRITTEN_NUMBERS)
        returned += (uint32_t)image_read(image, image_bytes, read_title, TITLE_BYTES, read_numbers, WRITTEN_NUMBERS, read_flips,
                                         WRITTEN_NUMBERS) >> 16;
}

static void plain_image_reading(uint32_t n)
{
    for (; n >= WRITTEN_NUMBERS; n -= WRITTEN_NUMBERS)
        returned += (uint32_t)plain_image_read(image, image_bytes, read_title, TITLE_BYTES, read_numbers, WRITTEN_NUMBERS, read_flips,
                                               WRITTEN_NUMBERS) >> 16;
}
