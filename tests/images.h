/* The images on which the calls and the bench are tried, as sets: on each image of a set, something is done. */
#pragma once
#include "image.h"

enum { MANY = 1000, SOME = 150, FEW = 10 };

typedef void use(struct test *, struct image *);

static struct image im;

static void sound(use *use, struct test *t)
{
    for (unsigned k = 0; k < MANY; k++) {
        draw_image(&im, 0);
        use(t, &im);
    }
}

static void one_rule(use *use, struct test *t)
{
    for (enum rule r = PAST_END; r < RULES; r++)
        for (unsigned k = 0; k < SOME; k++) {
            draw_image(&im, 1u << r);
            use(t, &im);
        }
}

static void two_rules(use *use, struct test *t)
{
    for (enum rule r = PAST_END; r < RULES; r++)
        for (enum rule other = PAST_END; other < r; other++)
            for (unsigned k = 0; k < FEW; k++) {
                draw_image(&im, 1u << r | 1u << other);
                use(t, &im);
            }
}

static void some_bytes(use *use, struct test *t)
{
    for (unsigned k = 0; k < MANY / 2; k++) {
        draw_image(&im, 0);
        change_bytes(&im);
        use(t, &im);
        draw_bytes(&im);
        use(t, &im);
    }
}

/* the image of so many bytes of these */
static void short_image(use *use, struct test *t, uint32_t n, uint8_t tag, uint8_t length, uint8_t value)
{
    im = (struct image){.bytes = {tag, 0, length, value}, .n = n, .number = BROKEN};
    use(t, &im);
}

static void short_images(use *use, struct test *t)
{
    static const uint8_t tags[] = {TITLE, GRIDS, BLOCK, END, 0x00};
    for (uint32_t n = 0; n <= 3; n++)
        for (unsigned k = 0; k < sizeof tags; k++)
            short_image(use, t, n, tags[k], 0, 0);
    short_image(use, t, 3, TITLE, 1, 0);
    short_image(use, t, 4, END, 0, 0);
    begin(&im, 1);
    broken_at(&im, im.n);
    use(t, &im);
    im.number = SOUND;
    add_head(&im, END, 0);
    use(t, &im);
}

/* the title of an image that is sound in all else */
static void try_title(use *use, struct test *t, unsigned length, unsigned place, uint8_t byte)
{
    begin(&im, length);
    if (place < length)
        im.bytes[3 + place] = byte;
    if (length < 1 || length > 24 || (place < length && (byte < 0x20 || byte > 0x7E)))
        broken_at(&im, 0);
    add_grids(&im, 1);
    add_head(&im, END, 0);
    use(t, &im);
}

static void titles(use *use, struct test *t)
{
    static const uint8_t limits[] = {0x1F, 0x20, 0x7E, 0x7F};
    for (unsigned length = 0; length < 40; length++)
        try_title(use, t, length, length, 0);
    try_title(use, t, 256, 256, 0);
    try_title(use, t, 257, 257, 0);
    for (unsigned byte = 0; byte < 256; byte++)
        try_title(use, t, 5, 2, (uint8_t)byte);
    for (unsigned place = 0; place < LONGEST_TITLE; place++)
        for (unsigned k = 0; k < sizeof limits; k++)
            try_title(use, t, LONGEST_TITLE, place, limits[k]);
}

/* a field behind the title of an image that is sound in all else */
static void try_field(use *use, struct test *t, unsigned tag, unsigned length, int allowed)
{
    begin(&im, 3);
    if (!allowed)
        broken_at(&im, im.n);
    add_field(&im, tag, length);
    if (tag == END)
        broken_at(&im, im.n);
    add_head(&im, END, 0);
    use(t, &im);
}

static void fields(use *use, struct test *t)
{
    static const uint16_t grids[] = {4080, 4088, 4092, 4095, 4096, 4097, 4100, 4104, 4112, 8192, 32000};
    for (unsigned tag = 0; tag < 256; tag++) {
        try_field(use, t, tag, 0, tag == GRIDS || tag == END);
        try_field(use, t, tag, BLOCK_BYTES, tag == BLOCK);
        begin(&im, 4);
        im.bytes[0] = (uint8_t)tag;
        add_head(&im, END, 0);
        im.number = tag == TITLE ? SOUND : BROKEN;
        use(t, &im);
    }
    for (unsigned length = 0; length < 160; length++) {
        try_field(use, t, GRIDS, length, length % GRID_BYTES == 0);
        try_field(use, t, BLOCK, length, length == BLOCK_BYTES);
        try_field(use, t, END, length, length == 0);
    }
    for (unsigned k = 0; k < sizeof grids / sizeof *grids; k++)
        try_field(use, t, GRIDS, grids[k], grids[k] <= LONGEST_GRIDS && grids[k] % GRID_BYTES == 0);
    try_field(use, t, BLOCK, 256 + BLOCK_BYTES, 0);
    try_field(use, t, END, 256, 0);
}

/* 14 to 18 data fields, so many of them blocks and the others empty */
static void data_fields(use *use, struct test *t)
{
    for (unsigned n = MOST_DATA_FIELDS - 2; n <= MOST_DATA_FIELDS + 2; n++)
        for (unsigned blocks = 0; blocks <= n; blocks++) {
            begin(&im, 1);
            for (unsigned k = 0; k < n; k++) {
                if (k == MOST_DATA_FIELDS)
                    broken_at(&im, im.n);
                if (k < blocks)
                    add_block(&im);
                else
                    add_grids(&im, 0);
            }
            add_head(&im, END, 0);
            use(t, &im);
        }
}

static void draw_small(void)
{
    begin(&im, 4);
    add_grids(&im, 2);
    add_block(&im);
    add_grids(&im, 0);
    add_head(&im, END, 0);
}

static void truncations(use *use, struct test *t)
{
    draw_small();
    for (unsigned last = im.fields - 1; im.n > 0;) {
        im.n--;
        last -= im.starts[last] > im.n;
        im.number = BROKEN;
        im.place = im.starts[last];
        use(t, &im);
    }
}

/* on both sides of 32,768 bytes: sound in all else; a byte short of that; with a bad title byte */
static void long_images(use *use, struct test *t)
{
    static const unsigned shapes[][2] = {{8, 0}, {16, 0}, {8, 8}};
    for (uint32_t n = LONGEST_IMAGE - 1; n <= LONGEST_IMAGE + 1; n++)
        for (unsigned k = 0; k < sizeof shapes / sizeof *shapes; k++) {
            draw_long_image(&im, n, shapes[k][0], shapes[k][1]);
            use(t, &im);
        }
    draw_long_image(&im, LONGEST_IMAGE + 1, 8, 3);
    im.n--;
    im.number = BROKEN;
    im.place = im.n - 2;
    use(t, &im);
    for (uint32_t n = LONGEST_IMAGE; n <= LONGEST_IMAGE + 1; n++) {
        draw_long_image(&im, n, 9, 1);
        im.bytes[3] = 0x7F;
        if (im.number == SOUND)
            broken_at(&im, 0);
        use(t, &im);
    }
}

/* An image of erased grids and, half of the times, numbers, of which none has flips but one that is erased. */
static void draw_erased(unsigned grids, unsigned flips)
{
    unsigned numbers = (unsigned)(draw() % 2), where = (unsigned)(draw() % grids);
    begin(&im, 1 + (unsigned)(draw() % LONGEST_TITLE));
    add_head(&im, GRIDS, GRID_BYTES * grids);
    for (unsigned k = 0; k < grids; k++)
        if (k == where)
            add_grid(&im, ERASED_GRID ^ draw_places(UINT64_MAX, flips));
        else
            add_grid(&im, numbers != 0 && draw() % 2 == 0 ? second_grid(draw_number()) : ERASED_GRID);
    add_head(&im, END, 0);
}

/* a library that writes back only fields, or only pages of 64 grids, with mended grids leaves those flips where they are */
static void erased(use *use, struct test *t)
{
    static const unsigned grids[] = {1, 2, 63, 64, 65, 128, 200, 511, 512};
    for (unsigned k = 0; k < sizeof grids / sizeof *grids; k++)
        for (unsigned flips = 0; flips <= 8; flips++) {
            draw_erased(grids[k], flips);
            use(t, &im);
        }
}

/* every byte of the image set to every value */
static void set_bytes(use *use, struct test *t)
{
    im.number = NOT_KNOWN;
    for (uint32_t place = 0; place < im.n; place++) {
        uint8_t was = im.bytes[place];
        for (unsigned byte = 0; byte < 256; byte++) {
            im.bytes[place] = (uint8_t)byte;
            use(t, &im);
        }
        im.bytes[place] = was;
    }
}

static void every_byte(use *use, struct test *t)
{
    draw_small();
    set_bytes(use, t);
}

/* the same of the least image with a grid, for the bench too */
static void every_byte_of_the_least(use *use, struct test *t)
{
    begin(&im, 1);
    add_grids(&im, 1);
    add_head(&im, END, 0);
    set_bytes(use, t);
}

/* a few for each rule, as many sound ones, and a long one on either side */
static void some_of_each(use *use, struct test *t)
{
    for (unsigned k = 0; k < FEW; k++)
        for (enum rule r = PAST_END; r < RULES; r++) {
            draw_image(&im, 0);
            use(t, &im);
            draw_image(&im, 1u << r);
            use(t, &im);
        }
    for (uint32_t n = LONGEST_IMAGE; n <= LONGEST_IMAGE + 1; n++) {
        draw_long_image(&im, n, 8, 0);
        use(t, &im);
    }
}

struct set {
    const char *name;
    void (*make)(use *, struct test *);
};

/* those that are for the calls and for the bench */
static const struct set sets[] = {
    {"images, sound", sound},
    {"images that break one rule", one_rule},
    {"images that break two rules", two_rules},
    {"images of changed and of any bytes", some_bytes},
    {"images of 0 to 7 bytes", short_images},
    {"images, titles", titles},
    {"images, tags and lengths of fields", fields},
    {"images, 14 to 18 data fields", data_fields},
    {"images, every truncation of a small one", truncations},
    {"images, 32767 to 32769 bytes", long_images},
    {"images, erased grids", erased},
    {"images, every byte of the least one set to every value", every_byte_of_the_least},
};
