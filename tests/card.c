/* The library's check, scrub, read-back and lines of a card image beside the second program's. `card` is called as `flip.h` says; the bits
   are 0 to 63 in the number that a scrub returns, 64 to 127 in the first eight bytes of the image, 128 to 191 in the pattern, 192 to 255 in
   the first eight bytes of the lines. `card images DIR` and `card images DIR SEED` compare nothing: they write the images to files of DIR,
   which is there, and to DIR/expected the name of each with what the bench has to print. A difference is reported at the number of the
   image, which is that of its file. */
#include "flip.h"
#include "forms.h"
#include "images.h"
#include "library.h"
#include "plain.h"
#include "room.h"
#include "second_card.h"

void *fopen(const char *, const char *);
int fprintf(void *, const char *, ...);
unsigned long fwrite(const void *, unsigned long, unsigned long, void *);
int fclose(void *);

enum { GRID_TALLY = 6, SETS = sizeof sets / sizeof *sets };

static struct test again = {.name = "image scrub, a second time"};
static struct test lines = {.name = "image lines, the same images"};
static struct test no_lines = {.name = "image lines, too little room"};
static struct test plain_checked = {.name = "the plain version's image check, the same images"};
static struct test plain_read_back = {.name = "the plain version's image read, the same images"};
static struct test plain_scrubbed = {.name = "the plain version's image scrub, the same images"};
static struct test plain_lines = {.name = "the plain version's image lines, the same images"};

/* how many images came before */
static uint64_t number;

/* a room with the image in it, and with these lengths of the other slices */
static void lend(struct state *s, const struct image *im, struct lengths lengths)
{
    lengths.image = im->n;
    draw_state(s, lengths);
    memcpy(image_in(s), im->bytes, im->n);
}

static void check(struct test *t, const struct state *lent)
{
    static struct state library, second, plainly;
    copy_state(&library, lent);
    copy_state(&second, lent);
    copy_state(&plainly, lent);
    library.returned = image_check(image_in(&library), library.lengths.image);
    struct image_answer a = second_image_check(image_in(&second), second.lengths.image);
    second.returned = image_number(a, a.grids | a.blocks << 16);
    plainly.returned = plain_image_check(image_in(&plainly), plainly.lengths.image);
    compare_states(&plain_checked, &plainly, &second, number);
    compare_states(t, &library, &second, number);
}

static void read_back(struct test *t, const struct state *lent)
{
    static struct state library, second, plainly;
    struct lengths n = lent->lengths;
    copy_state(&library, lent);
    copy_state(&second, lent);
    copy_state(&plainly, lent);
    library.returned = image_read(image_in(&library), n.image, title_in(&library), n.title, data_in(&library), n.data, flips_in(&library),
                                  n.flips);
    struct image_answer a = second_image_read(image_in(&second), n.image, title_in(&second), n.title, data_in(&second), n.data,
                                              flips_in(&second), n.flips);
    second.returned = image_number(a, a.title | a.grids << 16);
    plainly.returned = plain_image_read(image_in(&plainly), n.image, title_in(&plainly), n.title, data_in(&plainly), n.data,
                                        flips_in(&plainly), n.flips);
    compare_states(&plain_read_back, &plainly, &second, number);
    compare_states(t, &library, &second, number);
}

/* what a second scrub finds: clean + mended clean, 0 mended, 0 flips, and the same of all others */
static void found_again(uint32_t *clean, uint32_t *mended, uint32_t *flips)
{
    *clean += *mended;
    *mended = *flips = 0;
}

/* pattern 0, and nothing is altered; what was refused is refused again */
static void scrub_again(const struct state *once)
{
    static struct state twice, expected;
    copy_state(&twice, once);
    copy_state(&expected, once);
    twice.returned = image_scrub(image_in(&twice), twice.lengths.image, tallies_in(&twice), TALLIES, pattern_in(&twice));
    if (once->returned == 0) {
        uint32_t *grids = tallies_in(&expected), *blocks = grids + GRID_TALLY;
        *pattern_in(&expected) = 0;
        found_again(&grids[1], &grids[3], &grids[5]);
        found_again(&blocks[1], &blocks[2], &blocks[4]);
    }
    compare_states(&again, &twice, &expected, number);
}

static void scrub(struct test *t, const struct state *lent)
{
    static struct state library, second, plainly;
    copy_state(&library, lent);
    copy_state(&second, lent);
    copy_state(&plainly, lent);
    uint64_t n = lent->lengths.image;
    library.returned = image_scrub(image_in(&library), n, tallies_in(&library), TALLIES, pattern_in(&library));
    second.returned = image_number(second_image_scrub(image_in(&second), n, tallies_in(&second), pattern_in(&second)), 0);
    plainly.returned = plain_image_scrub(image_in(&plainly), n, tallies_in(&plainly), pattern_in(&plainly));
    compare_states(&plain_scrubbed, &plainly, &second, number);
    scrub_again(&library);
    flip(&library, flip_library);
    flip(&second, flip_second);
    compare_states(t, &library, &second, number);
}

/* what the second program prints stands at the front of the text, and nothing is altered behind it */
static void lay_lines(struct test *t, const struct state *lent)
{
    static struct state library, second, plainly;
    char printed[BENCH_TEXT];
    uint64_t n = lent->lengths.image, m = lent->lengths.text;
    copy_state(&library, lent);
    copy_state(&second, lent);
    copy_state(&plainly, lent);
    library.returned = image_lines(image_in(&library), n, text_in(&library), m);
    second.returned = second_bench(image_in(&second), n, printed);
    memcpy(text_in(&second), printed, second.returned);
    plainly.returned = plain_image_lines(image_in(&plainly), n, text_in(&plainly), m);
    compare_states(&plain_lines, &plainly, &second, number);
    flip_text(&library, flip_library);
    flip_text(&second, flip_second);
    compare_states(t, &library, &second, number);
}

/* where the text is too short, nothing is done, whatever the image is */
static void lay_no_lines(struct test *t, const struct state *lent)
{
    static struct state library, plainly, expected;
    uint64_t n = lent->lengths.image, m = lent->lengths.text;
    copy_state(&library, lent);
    copy_state(&plainly, lent);
    copy_state(&expected, lent);
    library.returned = image_lines(image_in(&library), n, text_in(&library), m);
    plainly.returned = plain_image_lines(image_in(&plainly), n, text_in(&plainly), m);
    expected.returned = (uint64_t)6 << 32;
    compare_states(&plain_lines, &plainly, &expected, number);
    compare_states(t, &library, &expected, number);
}

/* the lines of an image, with one of the lengths that are long enough and one of those that are not */
static void compare_lines(struct image *im)
{
    static const uint64_t enough[] = {LONGEST_LINES, LONGEST_LINES + 1, 400}, too_short[] = {0, 1, LONGEST_LINES - 1};
    static struct state lent;
    lend(&lent, im, (struct lengths){.text = enough[draw() % 3]});
    lay_lines(&lines, &lent);
    lend(&lent, im, (struct lengths){.text = too_short[draw() % 3]});
    lay_no_lines(&no_lines, &lent);
}

/* An image through the four calls, with rooms that are long enough; and what whoever made it knows of it. What is drawn here is drawn
   again afterwards, so that the images are those of `write_image`. */
static void compare_image(struct test *t, struct image *im)
{
    static struct state lent;
    uint64_t before = drawn;
    struct image_answer a = second_image_check(im->bytes, im->n);
    if (im->number != NOT_KNOWN) {
        compare(t, a.number, im->number, number);
        compare(t, a.place, im->number == BROKEN ? im->place : 0, number);
    }
    lend(&lent, im, (struct lengths){TALLIES, a.grids + draw() % 3, a.grids + draw() % 3, LONGEST_TITLE + draw() % 3, 0, 0});
    check(t, &lent);
    read_back(t, &lent);
    scrub(t, &lent);
    compare_lines(im);
    drawn = before;
    number++;
}

/* docs/FORMAT.md, An image byte by byte */
static void worked_image(void)
{
    static const struct image example = {
        .bytes = {0x01, 0x00, 0x04, 0x4D, 0x69, 0x72, 0x61, 0x02, 0x00, 0x10, 0xB0, 0x00, 0x00, 0x00, 0xB1,
                  0xB1, 0x00, 0xB1, 0xB1, 0x00, 0x00, 0x00, 0xB1, 0x00, 0x00, 0x00, 0x7F, 0x00, 0x00},
        .n = 29,
    };
    static const uint32_t tallies[TALLIES] = {2, 0, 0, 1, 1, 1};
    static const char printed[] = "title Mira\n"
                                  "grids 2 clean 0 blank 0 mended 1 lost 1 flips 1\n"
                                  "blocks 0 clean 0 mended 0 lost 0 flips 0\n";
    static struct state lent;
    struct test t = {.name = "the worked image"};
    lend(&lent, &example, (struct lengths){TALLIES, 2, 2, 4, 0, LONGEST_LINES});
    check(&t, &lent);
    read_back(&t, &lent);
    scrub(&t, &lent);
    lay_lines(&t, &lent);

    compare(&t, image_check(image_in(&lent), 29), 2, 0);
    compare(&t, image_read(image_in(&lent), 29, title_in(&lent), 4, data_in(&lent), 2, flips_in(&lent), 2), 4 | 2 << 16, 0);
    compare(&t, memcmp(title_in(&lent), "Mira", 4), 0, 0);
    compare(&t, data_in(&lent)[0] | (uint64_t)data_in(&lent)[1] << 16, 1, 0);
    compare(&t, flips_in(&lent)[0] | (uint64_t)flips_in(&lent)[1] << 8, 1 | 255 << 8, 0);
    compare(&t, memcmp(image_in(&lent), example.bytes, 29), 0, 0);
    compare(&t, image_scrub(image_in(&lent), 29, tallies_in(&lent), TALLIES, pattern_in(&lent)), 0, 0);
    compare(&t, memcmp(tallies_in(&lent), tallies, sizeof tallies), 0, 0);
    compare(&t, *pattern_in(&lent), 1, 0);
    compare(&t, image_in(&lent)[10], 0xB1, 0);
    image_in(&lent)[10] = 0xB0;
    compare(&t, memcmp(image_in(&lent), example.bytes, 29), 0, 0);
    compare(&t, image_lines(image_in(&lent), 29, text_in(&lent), LONGEST_LINES), sizeof printed - 1, 0);
    compare(&t, memcmp(text_in(&lent), printed, sizeof printed - 1), 0, 0);
    compare(&t, image_in(&lent)[10], 0xB1, 0);
    report(&t);
}

/* An image whose grids are all erased, with 0 to 7 flips; what each call has to find there is known. */
static void erased_grids(void)
{
    enum { FLIPS = 8, IMAGE_BYTES = 4 + 3 + FLIPS * GRID_BYTES + 3 };
    static const uint32_t tallies[TALLIES] = {FLIPS, 0, FLIPS, 0, 0, 28};
    static struct state lent;
    struct test t = {.name = "erased grids with 0 to 7 flips, read back and scrubbed"};
    begin(&im, 1);
    add_head(&im, GRIDS, FLIPS * GRID_BYTES);
    for (unsigned flips = 0; flips < FLIPS; flips++)
        add_grid(&im, ERASED_GRID ^ draw_places(UINT64_MAX, flips));
    add_head(&im, END, 0);
    lend(&lent, &im, (struct lengths){TALLIES, FLIPS, FLIPS, 1, 0, 0});
    uint64_t read = image_read(image_in(&lent), IMAGE_BYTES, title_in(&lent), 1, data_in(&lent), FLIPS, flips_in(&lent), FLIPS);
    compare(&t, read, 1 | FLIPS << 16, 0);
    for (unsigned flips = 0; flips < FLIPS; flips++) {
        compare(&t, data_in(&lent)[flips], 65535, flips);
        compare(&t, flips_in(&lent)[flips], 128 + flips, flips);
    }
    compare(&t, image_scrub(image_in(&lent), IMAGE_BYTES, tallies_in(&lent), TALLIES, pattern_in(&lent)), 0, 0);
    compare(&t, memcmp(tallies_in(&lent), tallies, sizeof tallies), 0, 0);
    compare(&t, *pattern_in(&lent), 0, 0);
    for (unsigned k = 0; k < FLIPS * GRID_BYTES; k++)
        compare(&t, image_in(&lent)[4 + 3 + k], 0xFF, k);
    report_drawn(t);
}

/* the data fields that are put in every order: a grid that is mended, clean, lost, blank, or blank with flips, no grid, a block that is
   mended */
enum kind { MENDED_GRID, CLEAN_GRID, LOST_GRID, BLANK_GRID, FLIPPED_BLANK_GRID, NO_GRID, MENDED_BLOCK, KINDS };

/* a block of zeros with one flip */
static void add_mended_block(void)
{
    unsigned place = draw() % BLOCK_PLACES;
    add_head(&im, BLOCK, BLOCK_BYTES);
    for (unsigned k = 0; k < BLOCK_BYTES; k++)
        add_byte(&im, k == place / 8 ? 1 << place % 8 : 0);
}

/* It returns what is flipped in the grid. */
static uint64_t add_kind(enum kind kind)
{
    int some = kind == MENDED_GRID || kind == FLIPPED_BLANK_GRID, erased = kind == BLANK_GRID || kind == FLIPPED_BLANK_GRID;
    uint64_t flips = draw_places(UINT64_MAX, some ? 1 + draw() % 7 : kind == LOST_GRID ? 8 : 0);
    if (kind == MENDED_BLOCK) {
        add_mended_block();
    } else if (kind == NO_GRID) {
        add_head(&im, GRIDS, 0);
    } else {
        add_head(&im, GRIDS, GRID_BYTES);
        add_grid(&im, (erased ? ERASED_GRID : second_grid(draw_number())) ^ flips);
    }
    return flips;
}

/* every order of up to three data fields: the pattern is what was flipped in the last grid that is mended, and no blank one is that */
static void last_mended(void)
{
    static struct state lent;
    struct test t = {.name = "image scrub, the pattern of the last mended grid"};
    for (unsigned n = 0, orders = 1; n <= 3; n++, orders *= KINDS)
        for (unsigned order = 0; order < orders; order++, number++) {
            uint64_t last = 0;
            begin(&im, 1);
            for (unsigned k = 0, rest = order; k < n; k++, rest /= KINDS) {
                uint64_t flips = add_kind(rest % KINDS);
                last = rest % KINDS == MENDED_GRID ? flips : last;
            }
            add_head(&im, END, 0);
            lend(&lent, &im, (struct lengths){.tallies = TALLIES});
            scrub(&t, &lent);
            compare(&t, image_scrub(image_in(&lent), im.n, tallies_in(&lent), TALLIES, pattern_in(&lent)), 0, number);
            compare(&t, *pattern_in(&lent), last, number);
        }
    report_drawn(t);
}

/* each of the three rooms one place too short, just long enough, and longer: 27 combinations, and one with no room at all */
static void try_rooms(struct test *t, struct image *im)
{
    static struct state lent;
    uint64_t title = im->bytes[2], grids = second_image_check(im->bytes, im->n).grids;
    for (unsigned c = 0; c < 27; c++) {
        uint64_t data_room = grids + c % 3, flips_room = grids + c / 3 % 3, title_room = title + c / 9;
        lend(&lent, im, (struct lengths){TALLIES, data_room - (grids > 0), flips_room - (grids > 0), title_room - (title > 0), 0, 0});
        read_back(t, &lent);
    }
    lend(&lent, im, (struct lengths){.tallies = TALLIES});
    read_back(t, &lent);
    number++;
}

/* with tallies of another length the archive alone refuses, and the table has no number for it */
static void try_tallies(struct test *t, struct image *im)
{
    static struct state before, after;
    for (uint64_t m = 0; m < TALLIES + 3; m++) {
        if (m == TALLIES)
            continue;
        lend(&before, im, (struct lengths){.tallies = m});
        copy_state(&after, &before);
        after.returned = image_scrub(image_in(&after), im->n, tallies_in(&after), m, pattern_in(&after));
        before.returned = (uint64_t)255 << 32;
        compare_states(t, &after, &before, number);
    }
    number++;
}

/* a text of each length that is looked at: 219 bytes are the least */
static void try_texts(struct test *t, struct image *im)
{
    static const uint64_t lengths[] = {0, 1, LONGEST_LINES - 1, LONGEST_LINES, LONGEST_LINES + 1, 400};
    static struct state lent;
    for (unsigned k = 0; k < sizeof lengths / sizeof *lengths; k++) {
        lend(&lent, im, (struct lengths){.text = lengths[k]});
        if (lengths[k] < LONGEST_LINES)
            lay_no_lines(t, &lent);
        else
            lay_lines(t, &lent);
    }
    number++;
}

static const char *folder;
static void *expected;

static void write_image(struct test *t, struct image *im)
{
    static struct image scrubbed;
    char name[300], text[BENCH_TEXT];
    scrubbed = *im;
    second_bench(scrubbed.bytes, scrubbed.n, text);
    snprintf(name, sizeof name, "%s/%05u.img", folder, (unsigned)number);
    void *file = fopen(name, "w");
    int written = file != 0 && fwrite(im->bytes, 1, im->n, file) == im->n && fclose(file) == 0;
    compare(t, written && fprintf(expected, "%05u.img\n%s", (unsigned)number, text) > 0, 1, number);
    number++;
}

static int write_images(void)
{
    struct test t = {.name = "images written"};
    char name[300];
    snprintf(name, sizeof name, "%s/expected", folder);
    expected = fopen(name, "w");
    if (expected == 0)
        return 1;
    for (unsigned k = 0; k < SETS; k++)
        sets[k].make(write_image, &t);
    return t.compared == 0 || t.differ != 0 || fclose(expected) != 0;
}

static void use_set(use *use, struct set set)
{
    struct test t = {.name = set.name};
    set.make(use, &t);
    report_drawn(t);
}

static void all(void)
{
    for (unsigned k = 0; k < SETS; k++)
        use_set(compare_image, sets[k]);
    use_set(compare_image, (struct set){"images, every byte of a small one set to every value", every_byte});
    use_set(try_rooms, (struct set){"image read, rooms too short, just long enough and longer", some_of_each});
    use_set(try_tallies, (struct set){"image scrub, tallies of other lengths", some_of_each});
    use_set(try_texts, (struct set){"image lines, texts of 0 to 400 bytes", some_of_each});
    last_mended();
    erased_grids();
    worked_image();
    report_drawn(again);
    report_drawn(lines);
    report_drawn(no_lines);
    report_drawn(plain_checked);
    report_drawn(plain_read_back);
    report_drawn(plain_scrubbed);
    report_drawn(plain_lines);
}

int main(int n, char **words)
{
    if (n >= 3 && strcmp(words[1], "images") == 0) {
        read_seed(n - 2, words + 2);
        folder = words[2];
        return write_images();
    }
    return run_tests(n, words, worked_image, all);
}
