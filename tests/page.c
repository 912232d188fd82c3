/* The library's page scrub beside the second program's. `page` is called as `flip.h` says; the bits are 0 to 63 in a grid of a page, 64 to
   95 in a number of its tally, 128 to 191 in the pattern. A difference is reported at the number of the page. */
#include "draw.h"
#include "flip.h"
#include "library.h"
#include "plain.h"
#include "second.h"

/* A page, a tally and a pattern each stand in the middle of a room, the rest of which nothing may touch. */
enum { BEFORE = 3, LONGEST = 600, ROOM = BEFORE + LONGEST + BEFORE, NUMBERS = 6, TALLY_ROOM = BEFORE + NUMBERS + BEFORE };
enum { PATTERN_ROOM = BEFORE + 1 + BEFORE };

struct state {
    uint64_t grids[ROOM], pattern[PATTERN_ROOM];
    uint32_t tally[TALLY_ROOM], returned;
};

/* where the numbers of the tally stand in its room */
enum { GRIDS = BEFORE, CLEAN, BLANK, MENDED, LOST, FLIPS };

/* of 16 grids of a page, on average: so many clean, so many with 1 to 7 flips, so many with 8, so many erased, with up to 7 flips; the
   others are any words */
struct mix {
    unsigned clean, mended, eight, erased;
};

static void draw_state(struct state *s, uint64_t n, struct mix mix)
{
    for (unsigned k = 0; k < ROOM; k++)
        s->grids[k] = draw();
    for (unsigned k = 0; k < TALLY_ROOM; k++)
        s->tally[k] = (uint32_t)draw();
    for (unsigned k = 0; k < PATTERN_ROOM; k++)
        s->pattern[k] = draw();
    s->returned = 0;
    for (uint64_t k = 0; k < n; k++) {
        uint64_t which = draw() % 16, codeword = second_grid((uint16_t)draw());
        if (which < mix.clean)
            s->grids[BEFORE + k] = codeword;
        else if (which < mix.clean + mix.mended)
            s->grids[BEFORE + k] = codeword ^ draw_places(UINT64_MAX, 1 + draw() % 7);
        else if (which < mix.clean + mix.mended + mix.eight)
            s->grids[BEFORE + k] = codeword ^ draw_places(UINT64_MAX, 8);
        else if (which < mix.clean + mix.mended + mix.eight + mix.erased)
            s->grids[BEFORE + k] = ERASED_GRID ^ draw_places(UINT64_MAX, draw() % 8);
    }
}

static void compare_states(struct test *t, const struct state *a, const struct state *b, uint64_t at)
{
    compare(t, a->returned, b->returned, at);
    for (unsigned k = 0; k < TALLY_ROOM; k++)
        compare(t, a->tally[k], b->tally[k], at);
    for (unsigned k = 0; k < PATTERN_ROOM; k++)
        compare(t, a->pattern[k], b->pattern[k], at);
    for (unsigned k = 0; k < ROOM; k++)
        compare(t, a->grids[k], b->grids[k], at);
}

/* what is flipped: in the grid of the first page of one, in the flips of its tally, and in its pattern */
static void flip(struct state *s, uint64_t flips[FLIP_WORDS])
{
    s->grids[BEFORE] ^= flips[0];
    s->tally[FLIPS] ^= (uint32_t)flips[1];
    s->pattern[BEFORE] ^= flips[2];
    flips[0] = flips[1] = flips[2] = 0;
}

static struct test scrubbed = {.name = "page scrub, 0 to 512 grids"}, again = {.name = "page scrub, a second time"},
                   refused = {.name = "page scrub, 513 and 600 grids"}, plain = {.name = "the plain version's page scrub, the same pages"};

/* all three scrub the same page; what the library made of it is left in its state */
static void scrub(struct test *t, struct state *library, uint64_t n, uint64_t at)
{
    struct state second = *library, plainly = *library;
    library->returned = page_scrub(library->grids + BEFORE, n, library->tally + BEFORE, NUMBERS, library->pattern + BEFORE);
    second.returned = second_scrub(second.grids + BEFORE, n, second.tally + BEFORE, second.pattern + BEFORE);
    plainly.returned = plain_scrub(plainly.grids + BEFORE, n, plainly.tally + BEFORE, plainly.pattern + BEFORE);
    compare_states(&plain, &plainly, &second, at);
    struct state shown = *library;
    if (n == 1) {
        flip(&shown, flip_library);
        flip(&second, flip_second);
    }
    compare_states(t, &shown, &second, at);
}

static void pages(void)
{
    static const uint64_t sizes[] = {0, 1, 2, 511, 512, 513, 600};
    static const struct mix mixes[] = {{16, 0, 0, 0}, {0, 16, 0, 0}, {0, 0, 16, 0}, {0, 0, 0, 16}, {0, 0, 0, 0},
                                       {13, 1, 1, 0}, {1, 13, 1, 0}, {4, 4, 4, 0},  {4, 4, 4, 4},  {8, 0, 0, 8}};
    uint64_t at = 0;
    for (unsigned s = 0; s < sizeof sizes / sizeof *sizes; s++)
        for (unsigned m = 0; m < sizeof mixes / sizeof *mixes; m++, at++) {
            struct state before, once, twice;
            draw_state(&before, sizes[s], mixes[m]);
            once = before;
            if (sizes[s] > 512) {
                scrub(&refused, &once, sizes[s], at);
                before.returned = 3;
                compare_states(&refused, &once, &before, at);
                continue;
            }
            scrub(&scrubbed, &once, sizes[s], at);
            compare(&scrubbed, once.returned, 0, at);

            /* a second scrub finds clean + mended clean, the same blank and lost, 0 mended, 0 flips, pattern 0, and alters nothing */
            twice = once;
            scrub(&again, &twice, sizes[s], at);
            once.tally[CLEAN] += once.tally[MENDED];
            once.tally[MENDED] = once.tally[FLIPS] = 0;
            once.pattern[BEFORE] = 0;
            compare_states(&again, &twice, &once, at);
        }
    report_drawn(scrubbed);
    report_drawn(again);
    report_drawn(refused);
}

/* the kinds of grids that are put in every order; those from BLANK_GRID on are erased */
enum kind { CLEAN_GRID, MENDED_GRID, LOST_GRID, BLANK_GRID, FLIPPED_BLANK_GRID, LOST_BLANK_GRID, KINDS };

static uint64_t draw_flips(enum kind kind)
{
    int some = kind == MENDED_GRID || kind == FLIPPED_BLANK_GRID, eight = kind == LOST_GRID || kind == LOST_BLANK_GRID;
    return draw_places(UINT64_MAX, some ? 1 + draw() % 7 : eight ? 8 : 0);
}

/* every order of up to four grids: the pattern is what was flipped in the last one that is mended, and no blank one is that */
static void last_mended(void)
{
    struct test t = {.name = "page scrub, the pattern of the last mended grid"};
    uint64_t at = 0;
    for (unsigned n = 0, orders = 1; n <= 4; n++, orders *= KINDS)
        for (unsigned order = 0; order < orders; order++, at++) {
            struct state page;
            uint64_t last = 0;
            draw_state(&page, 0, (struct mix){0});
            for (unsigned k = 0, rest = order; k < n; k++, rest /= KINDS) {
                enum kind kind = rest % KINDS;
                uint64_t flips = draw_flips(kind);
                page.grids[BEFORE + k] = (kind >= BLANK_GRID ? ERASED_GRID : second_grid(draw_number())) ^ flips;
                last = kind == MENDED_GRID ? flips : last;
            }
            scrub(&t, &page, n, at);
            compare(&t, page.pattern[BEFORE], last, at);
        }
    report_drawn(t);
}

/* Erased grids alone, as on a fresh card, of which one has up to seven flips: all of them are blank, and all ones afterwards. */
static void erased_pages(void)
{
    static const uint64_t sizes[] = {1, 2, 63, 64, 65, 511, 512};
    struct test t = {.name = "page scrub, erased grids alone"};
    for (unsigned s = 0; s < sizeof sizes / sizeof *sizes; s++)
        for (uint64_t flips = 0; flips <= 7; flips++) {
            struct state page, expected;
            uint64_t n = sizes[s], where = BEFORE + draw() % n;
            draw_state(&page, 0, (struct mix){0});
            for (uint64_t k = 0; k < n; k++)
                page.grids[BEFORE + k] = ERASED_GRID;
            expected = page;
            for (unsigned k = GRIDS; k <= FLIPS; k++)
                expected.tally[k] = 0;
            expected.tally[GRIDS] = expected.tally[BLANK] = (uint32_t)n;
            expected.tally[FLIPS] = (uint32_t)flips;
            expected.pattern[BEFORE] = 0;
            page.grids[where] ^= draw_places(UINT64_MAX, flips);
            scrub(&t, &page, n, n);
            compare_states(&t, &page, &expected, n);
        }
    report_drawn(t);
}

/* a tally that has not six places is refused by the archive alone, and the table has no number for it */
static void tallies(void)
{
    struct test t = {.name = "page scrub, tallies of other lengths"};
    for (uint64_t m = 0; m <= NUMBERS + BEFORE; m++) {
        if (m == NUMBERS)
            continue;
        struct state before, after;
        draw_state(&before, 2, (struct mix){.mended = 8, .erased = 8});
        after = before;
        before.returned = 255;
        after.returned = page_scrub(after.grids + BEFORE, 2, after.tally + BEFORE, m, after.pattern + BEFORE);
        compare_states(&t, &after, &before, m);
    }
    report_drawn(t);
}

static void all(void)
{
    pages();
    last_mended();
    erased_pages();
    tallies();
    report_drawn(plain);
}

int main(int n, char **words)
{
    return run_tests(n, words, pages, all);
}
