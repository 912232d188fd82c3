/* The library's writer of a card image beside the second program's, and what the other calls make of a written image. `card_write` is
   called as `flip.h` says; the bits are 0 to 63 in the number returned, 64 to 127 in the first eight bytes of the image. A difference is
   reported at the number of the comparison in its test. */
#include "flip.h"
#include "forms.h"
#include "library.h"
#include "plain.h"
#include "room.h"
#include "second_card.h"

enum { LONGEST_TITLE = 24, MOST_NUMBERS = 512, LONGEST_ROOM = 40000, LONGEST_WRITTEN = 9 + LONGEST_TITLE + 8 * MOST_NUMBERS };

/* the refusals for lengths, title bytes, the number of the erased grid, and room, as the library returns them */
static const uint64_t LENGTH = (uint64_t)3 << 32, TITLE_BYTE = (uint64_t)4 << 32, ERASED = (uint64_t)7 << 32, TOO_SHORT = (uint64_t)6 << 32;

static struct test plain = {.name = "the plain version's image write, the same titles, numbers and rooms"};

/* slices of these lengths; the title has good bytes, the numbers can be written, and what stands in the room is any */
static void lend(struct state *s, uint64_t title, uint64_t numbers, uint64_t room)
{
    draw_state(s, (struct lengths){.data = numbers, .title = title, .image = room});
    for (uint64_t k = 0; k < title; k++)
        title_in(s)[k] = (uint8_t)(0x20 + draw() % 95);
    for (uint64_t k = 0; k < numbers; k++)
        data_in(s)[k] = draw_number();
}

/* all three write; and what is to be returned is known beforehand */
static void try_write(struct test *t, const struct state *lent, uint64_t expected)
{
    static struct state library, second, plainly;
    struct lengths n = lent->lengths;
    copy_state(&library, lent);
    copy_state(&second, lent);
    copy_state(&plainly, lent);
    library.returned = image_write(title_in(&library), n.title, data_in(&library), n.data, image_in(&library), n.image);
    struct image_answer a = second_image_write(title_in(&second), n.title, data_in(&second), n.data, image_in(&second), n.image);
    second.returned = image_number(a, a.written);
    plainly.returned = plain_image_write(title_in(&plainly), n.title, data_in(&plainly), n.data, image_in(&plainly), n.image);
    compare_states(&plain, &plainly, &second, t->compared);
    compare(t, second.returned, expected, t->compared);
    flip(&library, flip_library);
    flip(&second, flip_second);
    compare_states(t, &library, &second, t->compared);
}

static struct state lent;

/* rooms of none, one byte too short, just long enough, longer, and longer than any image that can be read */
static void lengths(void)
{
    static const uint64_t numbers[] = {0, 1, 2, 511, 512, 513, 600};
    struct test t = {.name = "image write, titles of 0 to 26 bytes, numbers, rooms"};
    for (uint64_t title = 0; title <= LONGEST_TITLE + 2; title++)
        for (unsigned k = 0; k < sizeof numbers / sizeof *numbers; k++) {
            uint64_t needed = 9 + title + 8 * numbers[k];
            uint64_t rooms[] = {0, needed - 1, needed, needed + 1, needed + 50, LONGEST_ROOM};
            for (unsigned r = 0; r < sizeof rooms / sizeof *rooms; r++) {
                int allowed = title >= 1 && title <= LONGEST_TITLE && numbers[k] <= MOST_NUMBERS;
                lend(&lent, title, numbers[k], rooms[r]);
                try_write(&t, &lent, !allowed ? LENGTH : rooms[r] < needed ? TOO_SHORT : needed);
            }
        }
    report_drawn(t);
}

/* every byte at every place of some titles; behind it, half of the times, is another bad one */
static void title_bytes(void)
{
    static const unsigned titles[] = {1, 2, 13, 24};
    struct test t = {.name = "image write, every title byte at every place"};
    for (unsigned k = 0; k < sizeof titles / sizeof *titles; k++)
        for (unsigned place = 0; place < titles[k]; place++)
            for (unsigned byte = 0; byte < 256; byte++) {
                lend(&lent, titles[k], 2, 9 + titles[k] + 16);
                uint64_t behind = place + 1 + draw() % LONGEST_TITLE;
                if (behind < titles[k])
                    title_in(&lent)[behind] = 0x7F;
                title_in(&lent)[place] = (uint8_t)byte;
                int good = byte >= 0x20 && byte <= 0x7E;
                uint64_t bad = !good ? place : behind;
                try_write(&t, &lent, bad < titles[k] ? TITLE_BYTE | bad : 9 + titles[k] + 16);
            }
    report_drawn(t);
}

/* where several refusals apply: 3, then 4, then 7, then 6 */
static void order(void)
{
    struct test t = {.name = "image write, several refusals at once"};
    for (unsigned k = 0; k < 64; k++) {
        unsigned long_title = k & 1, many_numbers = k >> 1 & 1, bad_byte = k >> 2 & 1, short_room = k >> 3 & 1, no_room = k >> 4 & 1;
        unsigned erased = k >> 5;
        uint64_t title = LONGEST_TITLE + long_title, numbers = MOST_NUMBERS + many_numbers, needed = 9 + title + 8 * numbers;
        lend(&lent, title, numbers, no_room ? 0 : needed - short_room);
        if (bad_byte)
            title_in(&lent)[23] = 0x1F;
        if (erased)
            data_in(&lent)[draw() % numbers] = 65535;
        uint64_t refused = long_title || many_numbers ? LENGTH : bad_byte ? TITLE_BYTE | 23 : erased ? ERASED : TOO_SHORT;
        try_write(&t, &lent, k == 0 ? needed : refused);
    }
    report_drawn(t);
}

/* 65,535 at every place of some numbers, then at the last one too; with room enough, with a byte too little, and with none */
static void erased_numbers(void)
{
    static const uint64_t sizes[] = {1, 2, 3, 8, 65, 512};
    struct test t = {.name = "image write, 65535 at every place of the numbers"};
    for (unsigned s = 0; s < sizeof sizes / sizeof *sizes; s++)
        for (uint64_t place = 0; place < sizes[s]; place++) {
            uint64_t title = 1 + draw() % LONGEST_TITLE, needed = 9 + title + 8 * sizes[s];
            uint64_t rooms[] = {needed, needed - 1, 0, needed + 50};
            lend(&lent, title, sizes[s], rooms[place % 4]);
            data_in(&lent)[place] = 65535;
            try_write(&t, &lent, ERASED);
            data_in(&lent)[sizes[s] - 1] = 65535;
            try_write(&t, &lent, ERASED);
        }
    report_drawn(t);
}

/* the numbers that are nearest to it are written: 65,534, and those that differ from it in one bit or have one byte of it */
static void other_numbers(void)
{
    static const uint64_t sizes[] = {1, 2, 3, 65};
    struct test t = {.name = "image write, numbers that are nearly 65535"};
    for (unsigned s = 0; s < sizeof sizes / sizeof *sizes; s++)
        for (uint64_t place = 0; place < sizes[s]; place++)
            for (unsigned k = 0; k < 18; k++) {
                uint64_t needed = 9 + 4 + 8 * sizes[s];
                lend(&lent, 4, sizes[s], needed);
                data_in(&lent)[place] = (uint16_t)(k < 16 ? 65535 ^ 1 << k : k == 16 ? 0x00FF : 0xFF00);
                try_write(&t, &lent, needed);
            }
    report_drawn(t);
}

struct card {
    uint8_t title[LONGEST_TITLE], image[LONGEST_WRITTEN], flips[MOST_NUMBERS];
    uint16_t numbers[MOST_NUMBERS];
};

/* what stands in the image is the title and the numbers, each with its flips */
static void reads(struct test *t, struct card *card, uint64_t title, uint64_t n)
{
    struct card read;
    uint64_t length = 9 + title + 8 * n;
    compare(t, image_check(card->image, length), n, t->compared);
    compare(t, image_read(card->image, length, read.title, title, read.numbers, n, read.flips, n), title | n << 16, t->compared);
    compare(t, memcmp(read.title, card->title, title), 0, t->compared);
    compare(t, memcmp(read.numbers, card->numbers, n * sizeof *read.numbers), 0, t->compared);
    compare(t, memcmp(read.flips, card->flips, n), 0, t->compared);
}

/* what a scrub is to find: the pattern is what was flipped in the last grid that is mended */
struct found {
    uint32_t grids, mended, flips;
    uint64_t pattern;
};

/* A scrub leaves the image as it was written. */
static void scrubs(struct test *t, const struct card *card, const uint8_t *written, uint64_t length, struct found f)
{
    struct card scrubbed = *card;
    uint32_t tallies[TALLIES], expected[TALLIES] = {f.grids, f.grids - f.mended, 0, f.mended, 0, f.flips};
    uint64_t pattern = draw();
    compare(t, image_scrub(scrubbed.image, length, tallies, TALLIES, &pattern), 0, t->compared);
    compare(t, memcmp(tallies, expected, sizeof expected), 0, t->compared);
    compare(t, pattern, f.pattern, t->compared);
    compare(t, memcmp(scrubbed.image, written, length), 0, t->compared);
}

/* A written image is read back; and it is so with up to seven flips in each grid, which a scrub undoes. */
static void written(void)
{
    static const uint32_t sizes[] = {0, 1, 2, 3, 100, 511, 512};
    struct test clean = {.name = "a written image, read back and scrubbed"};
    struct test damaged = {.name = "a written image with up to 7 flips in a grid"};
    for (unsigned k = 0; k < 70; k++) {
        struct card card = {0};
        uint32_t n = sizes[k % 7];
        struct found found = {.grids = n};
        uint64_t title = 1 + draw() % LONGEST_TITLE, length = 9 + title + 8 * n;
        for (unsigned p = 0; p < title; p++)
            card.title[p] = (uint8_t)(0x20 + draw() % 95);
        for (unsigned p = 0; p < n; p++)
            card.numbers[p] = draw_number();
        compare(&clean, image_write(card.title, title, card.numbers, n, card.image, length), length, clean.compared);
        reads(&clean, &card, title, n);
        scrubs(&clean, &card, card.image, length, found);

        struct card hit = card;
        for (unsigned p = 0; p < n; p++) {
            uint64_t grid, flips = draw_places(UINT64_MAX, draw() % 8);
            hit.flips[p] = (uint8_t)second_distance(flips, 0);
            found.mended += flips != 0;
            found.flips += hit.flips[p];
            found.pattern = flips != 0 ? flips : found.pattern;
            memcpy(&grid, hit.image + 6 + title + 8 * p, sizeof grid);
            grid ^= flips;
            memcpy(hit.image + 6 + title + 8 * p, &grid, sizeof grid);
        }
        reads(&damaged, &hit, title, n);
        scrubs(&damaged, &hit, card.image, length, found);
    }
    report_drawn(clean);
    report_drawn(damaged);
}

static void all(void)
{
    lengths();
    title_bytes();
    order();
    erased_numbers();
    other_numbers();
    written();
    report_drawn(plain);
}

int main(int n, char **words)
{
    return run_tests(n, words, title_bytes, all);
}
