/* Bytes of stack: `stack SIDE CALL` prints how many a call needs at most, over the images, pages, blocks and words on which it is made
   here; SIDE is `library` or `plain`. The images are those of the test `card`, and more that have as many data fields as there can be. */
#include "stack.h"
#include "forms.h"
#include "images.h"
#include "library.h"
#include "plain.h"

int strcmp(const char *, const char *);
int dprintf(int, const char *, ...);

enum { ROUNDS = 20, PAGE = 512, NUMBERS = 6, TALLIES = 11, BLOCK_DATA = 32, MOST_NUMBERS = 512, MOST_GRIDS = LONGEST_IMAGE / GRID_BYTES };

static const uint64_t ALL = UINT64_MAX, LOW = UINT32_MAX, NONE = 0;
static const uint64_t LENGTH_NOT_ALLOWED = 3, TOO_SHORT = (uint64_t)6 << 32;

/* What is flipped in a grid, its verdict from bit 16 on but for the trials, these, and whether it is the erased grid: clean; mended after
   one, three and seven flips, after trials with one, two and three rows set aside, and by the second trial, with two and with three; lost;
   blank, without flips, and as the mended ones. */
static const struct {
    uint64_t flips;
    uint32_t verdict, trials;
    int erased;
} kinds[] = {{0, 0, 1, 0},
             {0x0000000000000001, 1, 1, 0},
             {0x0000400002000001, 3, 1, 0},
             {0x0102040810204000, 7, 1, 0},
             {0x0000000003000700, 5, 1, 0},
             {0x0003000000030000, 4, 1, 0},
             {0x0300000003000003, 6, 1, 0},
             {0x0000000000070007, 6, 2, 0},
             {0x0001000000070007, 7, 2, 0},
             {0x000000B1000000B1, 1 << 8, 2, 0},
             {0, 1 << 16, 1, 1},
             {0x0102040810204000, 1 << 16 | 7, 1, 1},
             {0x0000000000070007, 1 << 16 | 6, 2, 1}};
enum { KINDS = sizeof kinds / sizeof *kinds };

static uint64_t draw_kind(unsigned kind)
{
    return (kinds[kind].erased ? ERASED_GRID : second_grid(draw_number())) ^ kinds[kind].flips;
}

/* what the calls write to */
static uint64_t verdicts[PAGE], repaired[PAGE], patterns[PAGE];
static uint32_t tallies[TALLIES];
static uint16_t data[MOST_GRIDS], block_pattern[BLOCK_WORDS];
static uint8_t title[LONGEST_TITLE + 1], flips[MOST_GRIDS], text[LONGEST_LINES];

/* whether the plain version is called, which is not told the lengths of what it decodes to, nor of its tallies */
static int plain_side;

static void encode_grids(struct test *t)
{
    for (unsigned k = 0; k < MANY; k++) {
        uint64_t grid;
        uint16_t value = k == 0 ? ERASED_NUMBER : (uint16_t)draw();
        make_call(t, room, 0, (uint64_t[ARGUMENTS]){value, address(repaired)}, second_encode(value, &grid));
        compare(t, repaired[0], grid, t->compared);
    }
}

/* a page of each kind, and pages of all kinds and of any words */
static void draw_page(uint64_t page[PAGE + 1], unsigned round)
{
    for (unsigned k = 0; k <= PAGE; k++)
        page[k] = round < KINDS ? draw_kind(round) : draw_grid();
}

static void decode_grids(struct test *t)
{
    const uint64_t library[ARGUMENTS] = {address(room), PAGE, address(verdicts), PAGE, address(repaired), PAGE, address(patterns), PAGE};
    const uint64_t plain[ARGUMENTS] = {address(room), PAGE, address(verdicts), address(repaired), address(patterns)};
    uint64_t words[PAGE + 1];
    for (unsigned round = 0; round < ROUNDS; round++) {
        draw_page(words, round);
        make_call(t, words, sizeof words, plain_side ? plain : library, 0);
        if (round < KINDS)
            compare(t, verdicts[PAGE - 1] >> 16, kinds[round].verdict | kinds[round].trials << 12, t->compared);
    }
}

/* the scrub of n grids, or of n bytes of an image */
static void scrub(struct test *t, const void *bytes, uint64_t size, uint64_t n, uint64_t numbers, uint64_t expected)
{
    const uint64_t library[ARGUMENTS] = {address(room), n, address(tallies), numbers, address(patterns)};
    const uint64_t plain[ARGUMENTS] = {address(room), n, address(tallies), address(patterns)};
    make_call(t, bytes, size, plain_side ? plain : library, expected);
}

static void scrub_pages(struct test *t)
{
    static const uint64_t lengths[] = {0, 1, PAGE - 1, PAGE, PAGE + 1};
    uint64_t page[PAGE + 1];
    for (unsigned round = 0; round < ROUNDS; round++)
        for (unsigned k = 0; k < sizeof lengths / sizeof *lengths; k++) {
            draw_page(page, round);
            scrub(t, page, sizeof page, lengths[k], NUMBERS, lengths[k] > PAGE ? LENGTH_NOT_ALLOWED : 0);
        }
}

static void draw_words(uint16_t words[BLOCK_WORDS])
{
    for (unsigned k = 0; k < BLOCK_WORDS; k++)
        words[k] = (uint16_t)draw();
}

static void encode_blocks(struct test *t)
{
    uint16_t words[BLOCK_WORDS];
    for (unsigned k = 0; k < SOME; k++)
        for (uint64_t n = BLOCK_DATA - 1; n <= BLOCK_DATA; n++) {
            draw_words(words);
            make_call(t, words, sizeof words, (uint64_t[ARGUMENTS]){address(room), n, address(data), BLOCK_WORDS},
                      n == BLOCK_DATA ? 0 : LENGTH_NOT_ALLOWED);
        }
}

static void scrub_block(struct test *t, const uint16_t words[BLOCK_WORDS], uint64_t n)
{
    uint16_t scrubbed[BLOCK_WORDS];
    memcpy(scrubbed, words, sizeof scrubbed);
    make_call(t, words, sizeof scrubbed, (uint64_t[ARGUMENTS]){address(room), n, address(block_pattern)},
              scrub_number(second_block_scrub(scrubbed, n)));
}

/* clean, every flip, further flips up to four, any words, and a length that is not allowed */
static void scrub_blocks(struct test *t)
{
    uint16_t words[BLOCK_WORDS];
    for (unsigned place = 0; place < BLOCK_PLACES; place++) {
        draw_words(words);
        scrub_block(t, words, BLOCK_WORDS);
        scrub_block(t, words, BLOCK_WORDS - 1);
        second_block(words, words);
        scrub_block(t, words, BLOCK_WORDS);
        for (unsigned flipped = 0, at = place; flipped < 4; flipped++, at = draw() % BLOCK_PLACES) {
            words[at / 16] ^= (uint16_t)(1 << at % 16);
            scrub_block(t, words, BLOCK_WORDS);
        }
    }
}

static void add_full(unsigned kind)
{
    add_head(&im, GRIDS, LONGEST_GRIDS);
    for (unsigned k = 0; k < PAGE; k++)
        add_grid(&im, draw_kind(kind));
}

/* Sixteen data fields, full grids fields behind all others: so many of them, which are all of one kind, behind blocks or empty fields. With
   seven the image is among the longest. */
static void sixteen_fields(use *use, struct test *t)
{
    static const unsigned full[] = {0, 1, 7};
    for (unsigned kind = 0; kind < KINDS; kind++)
        for (unsigned k = 0; k < 2 * sizeof full / sizeof *full; k++) {
            begin(&im, LONGEST_TITLE);
            for (unsigned field = 0; field < MOST_DATA_FIELDS; field++)
                if (field >= MOST_DATA_FIELDS - full[k / 2])
                    add_full(kind);
                else if (k % 2 == 0)
                    add_block(&im);
                else
                    add_grids(&im, 0);
            add_head(&im, END, 0);
            use(t, &im);
        }
}

static void use_images(use *use, struct test *t)
{
    for (unsigned k = 0; k < sizeof sets / sizeof *sets; k++)
        sets[k].make(use, t);
    every_byte(use, t);
    some_of_each(use, t);
    sixteen_fields(use, t);
}

static void check_image(struct test *t, struct image *im)
{
    struct image_answer a = second_image_check(im->bytes, im->n);
    make_call(t, im->bytes, im->n, (uint64_t[ARGUMENTS]){address(room), im->n}, image_number(a, a.grids | a.blocks << 16));
}

static void scrub_image(struct test *t, struct image *im)
{
    struct image_answer a = second_image_check(im->bytes, im->n);
    scrub(t, im->bytes, im->n, im->n, TALLIES, image_number(a, 0));
}

/* with rooms that are long enough, and with none for the title */
static void read_image(struct test *t, struct image *im)
{
    struct image_answer a = second_image_check(im->bytes, im->n);
    uint64_t arguments[ARGUMENTS] = {address(room), im->n,      address(title), LONGEST_TITLE,
                                     address(data), MOST_GRIDS, address(flips), MOST_GRIDS};
    make_call(t, im->bytes, im->n, arguments, image_number(a, im->bytes[2] | a.grids << 16));
    arguments[3] = 0;
    make_call(t, im->bytes, im->n, arguments, a.number == 0 ? TOO_SHORT : image_number(a, 0));
}

/* with room for the lines, and with a byte less; what they are, `card` looks at */
static void lay_lines(struct test *t, struct image *im)
{
    static struct image scrubbed;
    char printed[BENCH_TEXT];
    scrubbed = *im;
    uint64_t arguments[ARGUMENTS] = {address(room), im->n, address(text), LONGEST_LINES};
    make_call(t, im->bytes, im->n, arguments, second_bench(scrubbed.bytes, im->n, printed));
    arguments[3] = LONGEST_LINES - 1;
    make_call(t, im->bytes, im->n, arguments, TOO_SHORT);
}

static void check_images(struct test *t)
{
    use_images(check_image, t);
}

static void scrub_images(struct test *t)
{
    use_images(scrub_image, t);
}

static void read_images(struct test *t)
{
    use_images(read_image, t);
}

static void lay_lines_of_images(struct test *t)
{
    use_images(lay_lines, t);
}

/* titles of 0 to 25 bytes, sound ones and ones with a bad byte, rooms that are just long enough and too short, and a number that is
   refused */
static void write_images(struct test *t)
{
    static const uint64_t numbers[] = {0, 1, MOST_NUMBERS, MOST_NUMBERS + 1};
    static uint8_t written[ROOM];
    for (uint64_t length = 0; length <= LONGEST_TITLE + 1; length++)
        for (unsigned k = 0; k < 4 * sizeof numbers / sizeof *numbers; k++) {
            uint64_t n = numbers[k / 4], bytes = 9 + length + GRID_BYTES * n - k % 2;
            for (uint64_t p = 0; p < length; p++)
                title[p] = (uint8_t)(0x20 + draw() % (k / 2 % 2 == 0 ? 95 : 96));
            for (uint64_t p = 0; p < n; p++)
                data[p] = draw_number();
            if (n > 0 && length % 5 == 0)
                data[draw() % n] = ERASED_NUMBER;
            struct image_answer a = second_image_write(title, length, data, n, written, bytes);
            make_call(t, room, 0, (uint64_t[ARGUMENTS]){address(title), length, address(data), n, address(room), bytes},
                      image_number(a, a.written));
        }
}

/* What is returned is a number of 64 bits, of 32, or nothing. */
static const struct {
    const char *name;
    function *library, *plain;
    uint64_t returned;
    void (*make)(struct test *);
} operations[] = {
    {"grid-encode", (function *)grid_encode, (function *)plain_encode, LOW, encode_grids},
    {"grid-decode", (function *)grid_decode, (function *)plain_decode, NONE, decode_grids},
    {"page-scrub", (function *)page_scrub, (function *)plain_scrub, LOW, scrub_pages},
    {"block-encode", (function *)block_encode, (function *)plain_block_encode, LOW, encode_blocks},
    {"block-scrub", (function *)block_scrub, (function *)plain_block_scrub, LOW, scrub_blocks},
    {"image-check", (function *)image_check, (function *)plain_image_check, ALL, check_images},
    {"image-scrub", (function *)image_scrub, (function *)plain_image_scrub, ALL, scrub_images},
    {"image-write", (function *)image_write, (function *)plain_image_write, ALL, write_images},
    {"image-read", (function *)image_read, (function *)plain_image_read, ALL, read_images},
    {"image-lines", (function *)image_lines, (function *)plain_image_lines, ALL, lay_lines_of_images},
};

int main(int n, char **words)
{
    int library = n == 3 && strcmp(words[1], "library") == 0, plain = n == 3 && strcmp(words[1], "plain") == 0;
    struct test t = {0};
    if (!measures()) {
        dprintf(2, "stack: a function that is known to write to %u bytes is not measured right\n", KNOWN);
        return 1;
    }
    for (unsigned o = 0; (library || plain) && o < sizeof operations / sizeof *operations; o++)
        if (strcmp(words[2], operations[o].name) == 0) {
            plain_side = plain;
            called = library ? operations[o].library : operations[o].plain;
            compared_bits = operations[o].returned;
            paint();
            operations[o].make(&t);
        }
    if (t.compared == 0 || t.differ != 0 || depth() == TOP) {
        dprintf(2, "stack: %llu calls, of which %llu answered wrong, and %llu bytes of stack\n", (unsigned long long)t.compared,
                (unsigned long long)t.differ, (unsigned long long)depth());
        return 1;
    }
    printf("%llu\n", (unsigned long long)depth());
    return 0;
}
