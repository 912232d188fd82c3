/* The library's decoder beside the second program's. `decode` is called as `flip.h` says; the bits are 0 to 63 in a verdict, 64 to 127 in
   the repaired grid, 128 to 191 in the pattern. Answers that differ are reported at the word that was read. */
#include "draw.h"
#include "flip.h"
#include "forms.h"
#include "library.h"
#include "plain.h"
#include "trials.h"

enum { VALUES = 65536, RADIUS = 7, SLICE = 1000, MANY = 20000, SOME = 2000, FEW = 50 };

static struct test plain = {.name = "the plain version's decode, the same words"};

/* an answer as three numbers: the verdict, the repaired grid and the pattern */
enum { NUMBERS = 3 };
struct numbers {
    uint64_t at[NUMBERS];
};

static struct numbers numbers_of(struct answer a)
{
    return (struct numbers){{verdict_number(a), a.repaired, a.pattern}};
}

static void compare_numbers(struct test *t, struct numbers a, struct numbers b, uint64_t read)
{
    for (unsigned k = 0; k < NUMBERS; k++)
        compare(t, a.at[k], b.at[k], read);
}

/* the first answer with its flips */
static struct numbers flipped(struct numbers a, uint64_t flips[FLIP_WORDS])
{
    for (unsigned k = 0; k < NUMBERS; k++) {
        a.at[k] ^= flips[k];
        flips[k] = 0;
    }
    return a;
}

/* for where whoever made a word does not know its flips; as flips these are too many to tell anything */
static const uint64_t NOT_KNOWN = UINT64_MAX;

/* What is known of an answer by the flips of the codeword, eight at most: the pattern, which is empty if there are eight, and the trials;
   and all the rest if it is the erased grid that was flipped, and not lost. */
static void compare_known(struct test *t, struct numbers library, uint64_t read, uint64_t flips)
{
    unsigned n = second_distance(flips, 0);
    if (n > RADIUS + 1)
        return;
    uint64_t pattern = n <= RADIUS ? flips : 0;
    compare(t, library.at[2], pattern, read);
    compare(t, library.at[0] >> 28 & 15, trials_of(flips), read);
    if ((read ^ pattern) == ERASED_GRID) {
        struct answer blank = {.blank = 1, .flips = n, .trials = trials_of(flips), .repaired = ERASED_GRID, .pattern = pattern};
        compare_numbers(t, library, numbers_of(blank), read);
    }
}

/* the words that wait until there is a slice of them, and what is known of their flips */
static uint64_t waiting[SLICE], known[SLICE], waiting_count;

static void decode_waiting(struct test *t)
{
    static uint64_t library[NUMBERS][SLICE], plainly[NUMBERS][SLICE];
    uint64_t n = waiting_count;
    grid_decode(waiting, n, library[0], n, library[1], n, library[2], n);
    plain_decode(waiting, n, plainly[0], plainly[1], plainly[2]);
    for (uint64_t k = 0; k < n; k++) {
        struct numbers second = numbers_of(second_decode(waiting[k]));
        struct numbers shown = {{library[0][k], library[1][k], library[2][k]}};
        compare_numbers(t, flipped(shown, flip_library), flipped(second, flip_second), waiting[k]);
        compare_numbers(&plain, (struct numbers){{plainly[0][k], plainly[1][k], plainly[2][k]}}, second, waiting[k]);
        compare_known(t, shown, waiting[k], known[k]);
    }
    waiting_count = 0;
}

static void decode(struct test *t, uint64_t read, uint64_t flips)
{
    waiting[waiting_count] = read;
    known[waiting_count++] = flips;
    if (waiting_count == SLICE)
        decode_waiting(t);
}

static void decode_flipped(struct test *t, uint64_t codeword, uint64_t flips)
{
    decode(t, codeword ^ flips, flips);
}

static void finish(struct test *t)
{
    decode_waiting(t);
    report_drawn(*t);
}

/* the quick counts beside slow ones, and the rule that they rest on */
static void counts(void)
{
    struct test t = {.name = "the second program's counts of differing places"};
    for (unsigned k = 0; k < 4; k++) {
        uint64_t read = draw();
        const uint8_t *counted = second_counts(read);
        for (uint32_t d = 0; d < VALUES; d++)
            compare(&t, counted[d], second_distance(read, second_grid((uint16_t)d)), d);
    }
    for (uint32_t d = 0; d < VALUES; d++)
        compare(&t, second_grid((uint16_t)d), second_grid((uint16_t)(d & 0xFF00)) ^ second_grid((uint16_t)(d & 0xFF)), d);
    report_drawn(t);
}

static void worked_words(void)
{
    static const struct {
        uint64_t read;
        struct answer answer;
    } worked[] = {
        {0x0000000000000000, {.data = 0, .flips = 0, .trials = 1, .repaired = 0, .pattern = 0}},
        {0x000000B0000000B1, {.data = 0, .flips = 7, .trials = 2, .repaired = 0, .pattern = 0x000000B0000000B1}},
        {0x000000B1000000B1, {.number = 1, .trials = 2, .repaired = 0x000000B1000000B1, .pattern = 0}},
        {0x000001B1000000B1, {.data = 1, .flips = 7, .trials = 2, .repaired = 0xB100B1B1000000B1, .pattern = 0xB100B00000000000}},
        {0xFFFFFFFFFFFFFFFF, {.blank = 1, .flips = 0, .trials = 1, .repaired = 0xFFFFFFFFFFFFFFFF, .pattern = 0}},
        {0xFFFFFFFFFFFFFFFE, {.blank = 1, .flips = 1, .trials = 1, .repaired = 0xFFFFFFFFFFFFFFFF, .pattern = 1}},
        {0xFFFFFF4FFFFFFF4E, {.blank = 1, .flips = 7, .trials = 2, .repaired = 0xFFFFFFFFFFFFFFFF, .pattern = 0x000000B0000000B1}},
        {0xFFFFFF4EFFFFFF4E, {.number = 1, .trials = 2, .repaired = 0xFFFFFF4EFFFFFF4E, .pattern = 0}},
        {0xFFFFFE4EFFFFFF4E, {.data = 65534, .flips = 7, .trials = 2, .repaired = 0x4EFF4E4EFFFFFF4E, .pattern = 0xB100B00000000000}},
        /* 2w + s is 3: three rows set aside; one, and a wrong row with three flips, with a row codeword, with five flips */
        {0x0000000000030303, {.data = 0, .flips = 6, .trials = 1, .repaired = 0, .pattern = 0x0000000000030303}},
        {0x0000000000000703, {.data = 0, .flips = 5, .trials = 1, .repaired = 0, .pattern = 0x0000000000000703}},
        {0x030000000000B100, {.data = 0, .flips = 6, .trials = 1, .repaired = 0, .pattern = 0x030000000000B100}},
        {0x1F00000000000300, {.data = 0, .flips = 7, .trials = 1, .repaired = 0, .pattern = 0x1F00000000000300}},
        /* it is 4: two wrong rows, with three flips each, with a row codeword in one; one, and two rows set aside */
        {0x0000000000000768, {.data = 0, .flips = 6, .trials = 2, .repaired = 0, .pattern = 0x0000000000000768}},
        {0x3100000000000031, {.data = 0, .flips = 6, .trials = 2, .repaired = 0, .pattern = 0x3100000000000031}},
        {0x00000000000007E8, {.data = 0, .flips = 7, .trials = 2, .repaired = 0, .pattern = 0x00000000000007E8}},
        {0x0300000003000007, {.data = 0, .flips = 7, .trials = 2, .repaired = 0, .pattern = 0x0300000003000007}},
    };
    struct test t = {.name = "decode, the worked words"};
    for (unsigned k = 0; k < sizeof worked / sizeof *worked; k++) {
        uint64_t read = worked[k].read;
        struct numbers expected = numbers_of(worked[k].answer), library = {{NOT_KNOWN, NOT_KNOWN, NOT_KNOWN}};
        grid_decode(&read, 1, &library.at[0], 1, &library.at[1], 1, &library.at[2], 1);
        compare_numbers(&t, library, expected, read);
        compare_numbers(&t, numbers_of(second_decode(read)), expected, read);
    }
    report(&t);
}

/* the answers to every codeword, where something else stands before they are given */
static struct {
    uint64_t read[VALUES], verdicts[VALUES], repaired[VALUES], patterns[VALUES];
} clean;

static void read_codewords(void)
{
    for (uint32_t d = 0; d < VALUES; d++) {
        clean.read[d] = second_grid((uint16_t)d);
        clean.verdicts[d] = clean.repaired[d] = clean.patterns[d] = NOT_KNOWN;
    }
}

/* a codeword is at 0 places from itself, so its answer is known without looking at the others: clean, but for the last, which is blank; no
   row is to be repaired, so it is the candidate of trial one */
static void compare_codewords(struct test *t)
{
    for (uint32_t d = 0; d < VALUES; d++) {
        struct numbers found = {{clean.verdicts[d], clean.repaired[d], clean.patterns[d]}};
        struct answer known = {.blank = d == ERASED_NUMBER, .data = d == ERASED_NUMBER ? 0 : d, .trials = 1, .repaired = clean.read[d]};
        compare_numbers(t, found, numbers_of(known), clean.read[d]);
    }
}

static void every_codeword(void)
{
    struct test t = {.name = "decode, every codeword"};
    read_codewords();
    grid_decode(clean.read, VALUES, clean.verdicts, VALUES, clean.repaired, VALUES, clean.patterns, VALUES);
    compare_codewords(&t);
    report(&t);
    read_codewords();
    plain_decode(clean.read, VALUES, clean.verdicts, clean.repaired, clean.patterns);
    compare_codewords(&plain);
}

static void every_pattern_on(struct test *t, uint64_t codeword)
{
    decode_flipped(t, codeword, 0);
    for (unsigned a = 0; a < 64; a++) {
        uint64_t one = (uint64_t)1 << a;
        decode_flipped(t, codeword, one);
        for (unsigned b = 0; b < a; b++) {
            uint64_t two = one | (uint64_t)1 << b;
            decode_flipped(t, codeword, two);
            for (unsigned c = 0; c < b; c++)
                decode_flipped(t, codeword, two | (uint64_t)1 << c);
        }
    }
}

static void every_pattern(void)
{
    struct test numbers = {.name = "decode, every pattern of up to 3 flips on two codewords"};
    struct test blank = {.name = "decode, every pattern of up to 3 flips on the erased grid"};
    for (unsigned k = 0; k < 2; k++)
        every_pattern_on(&numbers, second_grid(draw_number()));
    finish(&numbers);
    every_pattern_on(&blank, ERASED_GRID);
    finish(&blank);
}

/* up to seven flips are blank, and eight are lost; with more it can be a number that nobody has written */
static void erased_words(void)
{
    struct test t = {.name = "decode, 4 to 10 flips on the erased grid"};
    for (unsigned flips = 4; flips <= 10; flips++)
        for (unsigned k = 0; k < SOME; k++)
            decode_flipped(&t, ERASED_GRID, draw_places(UINT64_MAX, flips));
    finish(&t);
}

/* flips that stand close together are where decoders by rows and columns break */
static void flipped_words(void)
{
    struct test anywhere = {.name = "decode, 0 to 10 flips anywhere"}, close = {.name = "decode, 0 to 10 flips in few rows and columns"};
    for (unsigned k = 0; k < MANY / 2; k++) {
        uint64_t codeword = second_grid((uint16_t)draw());
        decode_flipped(&anywhere, codeword, draw_places(UINT64_MAX, draw() % 11));
    }
    finish(&anywhere);
    for (unsigned k = 0; k < MANY / 2; k++) {
        uint64_t codeword = second_grid((uint16_t)draw());
        uint64_t rows = draw_places(0x0101010101010101, 2 + draw() % 2), columns = draw_places(0xFF, 3 + draw() % 2);
        decode_flipped(&close, codeword, draw_places(rows * columns, draw() % 11));
    }
    finish(&close);
}

static void random_words(void)
{
    struct test t = {.name = "decode, random words"};
    for (unsigned k = 0; k < MANY; k++)
        decode(&t, draw(), NOT_KNOWN);
    finish(&t);
}

/* on the way from a codeword to one that is 16 places away: 7 of these places flipped, then 8, then 9, which is 7 from the other one */
static void between(struct test *t, uint64_t from, uint64_t to)
{
    for (unsigned flips = 7; flips <= 9; flips++) {
        uint64_t read = from ^ draw_places(from ^ to, flips);
        compare(t, second_distance(read, from), flips, read);
        compare(t, second_distance(read, to), 16 - flips, read);
        decode(t, read, flips <= 8 ? read ^ from : read ^ to);
    }
}

static void half_way(void)
{
    static uint16_t near[VALUES];
    unsigned near_count = 0;
    for (uint32_t d = 0; d < VALUES; d++)
        if (second_distance(0, second_grid((uint16_t)d)) == 16)
            near[near_count++] = (uint16_t)d;

    struct test any = {.name = "decode, half-way between neighbours"};
    for (unsigned k = 0; k < SOME; k++) {
        uint16_t data = (uint16_t)draw();
        between(&any, second_grid(data), second_grid(data ^ near[draw() % near_count]));
    }
    finish(&any);
    struct test erased = {.name = "decode, half-way between the erased grid and each neighbour"};
    for (unsigned k = 0; k < near_count; k++)
        between(&erased, ERASED_GRID, second_grid(ERASED_NUMBER ^ near[k]));
    finish(&erased);
}

/* every other time the erased grid */
static uint64_t draw_codeword(void)
{
    return draw() % 2 == 0 ? ERASED_GRID : second_grid(draw_number());
}

static void one_row(void)
{
    struct test t = {.name = "decode, every set of flips in one row"};
    for (unsigned k = 8; k < 8 * 256; k++)
        decode_flipped(&t, draw_codeword(), (uint64_t)(k / 8) << 8 * (k % 8));
    finish(&t);
}

/* Two wrong rows: these flips in one, and in the other, for each of its patterns, three flips, or a row codeword of four ones. Three and
   three are taken once for two rows. No second program is asked: the answer is what was written, after two trials. How many answers say so
   is counted, for six flips and for seven. */
static void two_wrong_rows(struct test *t, unsigned row, unsigned flips, unsigned other, uint64_t counted[2])
{
    uint64_t read[256], patterns[256], library[NUMBERS][256];
    uint16_t data = draw_number();
    unsigned n = 0;
    for (unsigned x = 0; x < 256; x++)
        if ((second_distance(x, 0) == 3 && row < other) || (second_distance(x, 0) == 4 && is_row_codeword(x))) {
            patterns[n] = (uint64_t)flips << 8 * row | (uint64_t)x << 8 * other;
            read[n] = second_grid(data) ^ patterns[n];
            n++;
        }
    grid_decode(read, n, library[0], n, library[1], n, library[2], n);
    for (unsigned k = 0; k < n; k++) {
        unsigned seven = second_distance(patterns[k], 0) == 7;
        struct answer written = {.data = data, .flips = 6 + seven, .trials = 2, .repaired = second_grid(data), .pattern = patterns[k]};
        compare_numbers(t, (struct numbers){{library[0][k], library[1][k], library[2][k]}}, numbers_of(written), read[k]);
        counted[seven] += (library[0][k] >> 28 & 15) == 2;
    }
}

/* Of all patterns of six flips those that take two trials have three in each of two rows: 28 pairs of rows, and 56 patterns in each. Of
   seven flips there are more; those with a row codeword are 56 ordered pairs of rows, 56 patterns and 14 row codewords. */
static void every_two_wrong_rows(void)
{
    struct test t = {.name = "decode, every three flips in a row beside three or a row codeword in another"};
    uint64_t counted[2] = {0, 0};
    for (unsigned k = 0; k < 64; k++)
        for (unsigned flips = 0; k / 8 != k % 8 && flips < 256; flips++)
            if (second_distance(flips, 0) == 3)
                two_wrong_rows(&t, k / 8, flips, k % 8, counted);
    compare(&t, counted[0], 28 * 56 * 56, 0);
    compare(&t, counted[1], 56 * 56 * 14, 1);
    report_drawn(t);
}

/* kinds of rows: with one to four flips, and with those that make a row codeword of another one */
enum { ROW_KINDS = 5, OTHER_ROW_CODEWORD = 4 };

static uint64_t draw_row(unsigned kind)
{
    return kind == OTHER_ROW_CODEWORD ? second_grid(1 + draw() % 15) & 255 : draw_places(255, kind + 1);
}

/* so many rows of each kind, anywhere */
static uint64_t draw_rows(const unsigned many[ROW_KINDS])
{
    unsigned places[8] = {0, 8, 16, 24, 32, 40, 48, 56}, used = 0;
    uint64_t flips = 0;
    draw_front(places, 8, 8);
    for (unsigned kind = 0; kind < ROW_KINDS; kind++)
        for (unsigned k = 0; k < many[kind]; k++)
            flips |= draw_row(kind) << places[used++];
    return flips;
}

/* Every number of rows set aside, 0 to 8 in trial one and in trial two, with every number of wrong rows. Where it is about the radius there
   are more words. */
static void kinds_of_rows(void)
{
    struct test t = {.name = "decode, every number of rows with one to four flips and with row codewords"};
    for (unsigned k = 0; k < 9 * 9 * 9 * 9 * 9; k++) {
        unsigned many[ROW_KINDS] = {k % 9, k / 9 % 9, k / 81 % 9, k / 729 % 9, k / 6561};
        unsigned rows = many[0] + many[1] + many[2] + many[3] + many[4];
        unsigned flips = many[0] + 2 * many[1] + 3 * many[2] + 4 * many[3] + 4 * many[4];
        for (unsigned n = rows > 8 ? 0 : flips > RADIUS + 1 ? 2 : FEW; n > 0; n--)
            decode_flipped(&t, draw_codeword(), draw_rows(many));
    }
    finish(&t);
}

/* the flips that repairing a row needs, and the repaired row: the nearest of 16 */
static unsigned repair(uint64_t row, uint64_t *repaired)
{
    unsigned least = 8;
    for (unsigned d = 0; d < 16; d++)
        if (second_distance(row, clean.read[d] & 255) < least) {
            *repaired = clean.read[d] & 255;
            least = second_distance(row, *repaired);
        }
    return least;
}

/* the second program's candidate of a trial beside a slow search: every row of every codeword is looked at */
static void compare_candidate(struct test *t, uint64_t read, unsigned trial)
{
    uint64_t candidate = 0, found = 0, count = 0, repaired[8];
    unsigned s = 0, aside[8];
    for (unsigned r = 0; r < 8; r++) {
        aside[r] = repair(read >> 8 * r & 255, &repaired[r]) >= (trial == 1 ? 2 : 1);
        s += aside[r];
    }
    for (uint32_t d = 0; d < VALUES; d++) {
        unsigned w = 0;
        for (unsigned r = 0; r < 8; r++)
            w += !aside[r] && (clean.read[d] >> 8 * r & 255) != repaired[r];
        if (2 * w + s <= 3) {
            found = clean.read[d];
            count++;
        }
    }
    compare(t, (uint64_t)second_candidate(read, trial, &candidate), count, read);
    compare(t, candidate, found, read);
}

static void candidates(void)
{
    struct test t = {.name = "the second program's candidates, beside every codeword"};
    read_codewords();
    for (unsigned k = 0; k < FEW; k++) {
        unsigned many[ROW_KINDS];
        for (unsigned kind = 0; kind < ROW_KINDS; kind++)
            many[kind] = draw() % 2;
        uint64_t flipped = draw_codeword() ^ draw_rows(many), any = draw();
        for (unsigned trial = 1; trial <= 2; trial++) {
            compare_candidate(&t, flipped, trial);
            compare_candidate(&t, any, trial);
        }
    }
    report_drawn(t);
}

/* slices of 0 to 3 places in rooms of 4: nothing is written behind a slice, and nothing at all if the lengths are not the same */
static void lengths(void)
{
    enum { ROOM = 4, UNTOUCHED = 12345 };
    struct test t = {.name = "decode, every combination of four lengths"};
    for (unsigned k = 0; k < ROOM * ROOM * ROOM * ROOM; k++) {
        uint64_t n = k % ROOM, m = k / ROOM % ROOM, l = k / ROOM / ROOM % ROOM, o = k / ROOM / ROOM / ROOM;
        uint64_t read[ROOM], verdicts[ROOM], repaired[ROOM], patterns[ROOM];
        for (unsigned p = 0; p < ROOM; p++) {
            read[p] = second_grid((uint16_t)p);
            verdicts[p] = repaired[p] = patterns[p] = UNTOUCHED;
        }
        grid_decode(read, n, verdicts, m, repaired, l, patterns, o);
        for (unsigned p = 0; p < ROOM; p++) {
            int written = n == m && m == l && l == o && p < n;
            compare(&t, read[p], second_grid((uint16_t)p), k);
            compare(&t, verdicts[p], written ? verdict_number((struct answer){.data = p, .trials = 1}) : UNTOUCHED, k);
            compare(&t, repaired[p], written ? second_grid((uint16_t)p) : UNTOUCHED, k);
            compare(&t, patterns[p], written ? 0 : UNTOUCHED, k);
        }
    }
    report(&t);
}

static void all(void)
{
    counts();
    worked_words();
    every_codeword();
    every_pattern();
    erased_words();
    flipped_words();
    random_words();
    half_way();
    one_row();
    every_two_wrong_rows();
    kinds_of_rows();
    candidates();
    lengths();
    report_drawn(plain);
}

int main(int n, char **words)
{
    return run_tests(n, words, half_way, all);
}
