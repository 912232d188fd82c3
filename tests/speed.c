/* One operation many times, for counting its instructions: `speed SIDE OPERATION COUNT`, where SIDE is `library` or `plain`, and COUNT a
   multiple of how many are made at a time: 4091 for scrubs of images, 512 for `image-write` and `image-read`, 200 for blocks, 1000 for all
   others. */
#include "draw.h"
#include "library.h"
#include "plain.h"
#include "speed_card.h"
#include "trials.h"

int atoi(const char *);
int strcmp(const char *, const char *);

enum { WORDS = 1000, PAGE = 500, NUMBERS = 6, BLOCKS = 200, BLOCK_DATA = 32, BLOCK_WORDS = 38 };

/* An answer is the flips, and from bit 8 on the refusal's number, for a word and a block alike, and for a word from bit 12 on the trials,
   and bit 16 if it is blank. For a grid of a page or of an image it is 1 if clean, 2 if blank, 4 if mended and 8 if lost, and 16 for each
   flip. For the check of an image it is what that returns, and for a number that is written or read back 1. */
enum { GRID_LOST = 1 << 8, BLOCK_LOST = 2 << 8, TRIAL = 1 << 12, BLANK = 1 << 16 };
enum { PAGE_CLEAN = 1, PAGE_BLANK = 2, PAGE_MENDED = 4, PAGE_LOST = 8, PAGE_FLIP = 16 };

/* what is decoded and scrubbed, and the answers */
static uint64_t words[WORDS], verdicts[WORDS], repaired[WORDS], patterns[WORDS];
static struct block {
    uint16_t words[BLOCK_WORDS];
} blocks[BLOCKS], block, block_pattern;

/* the sum of the trials that the words take */
static uint32_t trials;

static void library_encoding(uint32_t n)
{
    for (uint32_t k = 0; k < n; k++)
        returned += grid_encode(value(k), repaired);
}

static void plain_encoding(uint32_t n)
{
    for (uint32_t k = 0; k < n; k++)
        returned += plain_encode(value(k), repaired);
}

static void library_decoding(uint32_t n)
{
    for (; n >= WORDS; n -= WORDS)
        grid_decode(words, WORDS, verdicts, WORDS, repaired, WORDS, patterns, WORDS);
}

static void plain_decoding(uint32_t n)
{
    for (; n >= WORDS; n -= WORDS)
        plain_decode(words, WORDS, verdicts, repaired, patterns);
}

static void library_scrubbing(uint32_t n)
{
    for (; n >= PAGE; n -= PAGE)
        page_scrub(words, PAGE, tally, NUMBERS, &pattern);
}

static void plain_scrubbing(uint32_t n)
{
    for (; n >= PAGE; n -= PAGE)
        plain_scrub(words, PAGE, tally, &pattern);
}

static void library_block_encoding(uint32_t n)
{
    for (; n >= BLOCKS; n -= BLOCKS)
        for (uint32_t k = 0; k < BLOCKS; k++)
            returned += block_encode(blocks[k].words, BLOCK_DATA, block.words, BLOCK_WORDS);
}

static void plain_block_encoding(uint32_t n)
{
    for (; n >= BLOCKS; n -= BLOCKS)
        for (uint32_t k = 0; k < BLOCKS; k++)
            returned += plain_block_encode(blocks[k].words, BLOCK_DATA, block.words, BLOCK_WORDS);
}

/* a copy of a block is scrubbed, so that the flips are there the next time; the copy, some ten instructions, is counted on both sides */
static void library_block_scrubbing(uint32_t n)
{
    for (; n >= BLOCKS; n -= BLOCKS)
        for (uint32_t k = 0; k < BLOCKS; k++) {
            block = blocks[k];
            returned += block_scrub(block.words, BLOCK_WORDS, block_pattern.words);
        }
}

static void plain_block_scrubbing(uint32_t n)
{
    for (; n >= BLOCKS; n -= BLOCKS)
        for (uint32_t k = 0; k < BLOCKS; k++) {
            block = blocks[k];
            returned += plain_block_scrub(block.words, BLOCK_WORDS, block_pattern.words);
        }
}

static void prepare_word(uint32_t w, uint64_t codeword)
{
    uint64_t flipped = draw_flips();
    words[w] = codeword ^ flipped;
    trials += trials_of(flipped);
}

static void prepare_words(void)
{
    for (uint32_t w = 0; w < WORDS; w++)
        prepare_word(w, plain_grid(value(w)));
}

static void prepare_erased(void)
{
    for (uint32_t w = 0; w < WORDS; w++)
        prepare_word(w, UINT64_MAX);
}

static void prepare_blocks(void)
{
    for (uint32_t k = 0; k < BLOCKS; k++)
        for (unsigned w = 0; w < BLOCK_WORDS; w++)
            blocks[k].words[w] = (uint16_t)draw();
}

typedef void operation(uint32_t);

/* what is counted on both sides, and how many are made at a time */
struct kind {
    operation *library, *plain;
    uint32_t many;
};

static const struct kind encoding = {library_encoding, plain_encoding, 1};
static const struct kind decoding = {library_decoding, plain_decoding, WORDS};
static const struct kind scrubbing = {library_scrubbing, plain_scrubbing, PAGE};
static const struct kind block_encoding = {library_block_encoding, plain_block_encoding, BLOCKS};
static const struct kind block_scrubbing = {library_block_scrubbing, plain_block_scrubbing, BLOCKS};
static const struct kind image_scrubbing = {library_image_scrubbing, plain_image_scrubbing, IMAGE_GRIDS};
static const struct kind image_mending = {library_image_mending, plain_image_mending, IMAGE_GRIDS};
static const struct kind image_checking = {library_image_checking, plain_image_checking, 1};
static const struct kind image_writing = {library_image_writing, plain_image_writing, WRITTEN_NUMBERS};
static const struct kind image_reading = {library_image_reading, plain_image_reading, WRITTEN_NUMBERS};

/* Each with what it works on, what every answer has to be but for the trials, and what is flipped in every grid: these places, and so many
   more that are drawn for it. From `clean` to `lost-drawn` a word is decoded; `page-clean` and `page-blank` are for one grid of a page,
   `image-clean`, `image-flip-1` and `image-lost` for one of an image. The blocks are any words. */
static const struct {
    const char *name;
    const struct kind *kind;
    void (*prepare)(void);
    uint32_t answer;
    uint64_t flips;
    unsigned drawn;
} operations[] = {
    {"encode", &encoding, prepare_words, 0, 0, 0},
    {"clean", &decoding, prepare_words, 0, 0, 0},
    {"flip-1", &decoding, prepare_words, 1, 0x0000000000000001, 0},
    {"flip-3", &decoding, prepare_words, 3, 0x0000400002000001, 0},
    {"flip-7", &decoding, prepare_words, 7, 0x0102040810204000, 0},
    {"both-trials", &decoding, prepare_words, 6, 0x0000000000070007, 0},
    {"lost", &decoding, prepare_words, GRID_LOST, 0x000000B1000000B1, 0},
    {"blank", &decoding, prepare_erased, BLANK, 0, 0},
    {"blank-flips", &decoding, prepare_erased, BLANK | 3, 0x0000400002000001, 0},
    {"flips-3-drawn", &decoding, prepare_words, 3, 0, 3},
    {"flips-7-drawn", &decoding, prepare_words, 7, 0, 7},
    {"lost-drawn", &decoding, prepare_words, GRID_LOST, 0, 8},
    {"page-clean", &scrubbing, prepare_words, PAGE_CLEAN, 0, 0},
    {"page-blank", &scrubbing, prepare_erased, PAGE_BLANK, 0, 0},
    {"image-clean", &image_scrubbing, prepare_longest, PAGE_CLEAN, 0, 0},
    {"image-flip-1", &image_mending, prepare_longest, PAGE_MENDED | PAGE_FLIP, 0, 1},
    {"image-lost", &image_mending, prepare_longest, PAGE_LOST, 0, 8},
    {"image-check-8", &image_checking, prepare_longest, IMAGE_GRIDS, 0, 0},
    {"image-check-16", &image_checking, prepare_sixteen, 16 | 8 << 16, 0, 0},
    {"image-write", &image_writing, prepare_written, 1, 0, 0},
    {"image-read", &image_reading, prepare_written, 1, 0, 0},
    {"block-encode", &block_encoding, prepare_blocks, 0, 0, 0},
    {"block-random", &block_scrubbing, prepare_blocks, BLOCK_LOST, 0, 0},
};

/* The other block scrubs, each with its answer and with what is flipped in every block, in up to three words. Where the name does not
   say it, data places are in different rows and columns and on different diagonals. In `block-flips-crossed` the lower row has the higher
   column; a name that ends in `-check` after `flips` is for a data place and such a check. */
static const struct {
    const char *name;
    uint32_t answer;
    struct {
        uint16_t word, bits;
    } flips[3];
} block_scrubs[] = {
    {"block-clean", 0, {{0}}},
    {"block-flip-1", 1, {{9, 1 << 6}}},
    {"block-flip-check", 1, {{33, 1 << 6}}},
    {"block-flips-2", 2, {{9, 1 << 6}, {20, 1 << 13}}},
    {"block-flips-crossed", 2, {{9, 1 << 13}, {12, 1 << 2}}},
    {"block-flips-row", 2, {{9, 1 << 6 | 1 << 13}}},
    {"block-flips-column", 2, {{9, 1 << 6}, {20, 1 << 6}}},
    {"block-flips-diagonal", 2, {{9, 1 << 6}, {12, 1 << 3}}},
    {"block-flips-row-check", 2, {{9, 1 << 6}, {32, 1 << 4}}},
    {"block-flips-column-check", 2, {{9, 1 << 6}, {34, 1 << 3}}},
    {"block-flips-diagonal-check", 2, {{9, 1 << 6}, {35, 1 << 5}}},
    {"block-flips-checks", 2, {{33, 1 << 6}, {37, 1 << 15}}},
    {"block-lost", BLOCK_LOST, {{5, 1 << 7}, {9, 1 << 11}, {14, 1 << 2}}},
};

/* the kind of the operation of that name, and the sum that its answers have to have, when what it works on is there; 0 if there is none */
static const struct kind *prepared(const char *name, uint32_t *sum)
{
    for (unsigned o = 0; o < sizeof operations / sizeof *operations; o++)
        if (strcmp(name, operations[o].name) == 0) {
            const struct kind *kind = operations[o].kind;
            flips = operations[o].flips;
            drawn_flips = operations[o].drawn;
            operations[o].prepare();
            *sum = kind->many * operations[o].answer + (kind == &decoding ? TRIAL * trials : 0);
            return kind;
        }
    for (unsigned o = 0; o < sizeof block_scrubs / sizeof *block_scrubs; o++)
        if (strcmp(name, block_scrubs[o].name) == 0) {
            prepare_blocks();
            for (uint32_t k = 0; k < BLOCKS; k++) {
                plain_block_encode(blocks[k].words, BLOCK_DATA, blocks[k].words, BLOCK_WORDS);
                for (unsigned f = 0; f < 3; f++)
                    blocks[k].words[block_scrubs[o].flips[f].word] ^= block_scrubs[o].flips[f].bits;
            }
            *sum = BLOCKS * block_scrubs[o].answer;
            return &block_scrubbing;
        }
    return 0;
}

/* the sum of the answers; what is read back is to have no flips */
static uint32_t answers(void)
{
    uint32_t sum = PAGE_CLEAN * tally[1] + PAGE_BLANK * tally[2] + PAGE_MENDED * tally[3] + PAGE_LOST * tally[4] + PAGE_FLIP * tally[5];
    for (uint32_t w = 0; w < WORDS; w++)
        sum += (uint32_t)(verdicts[w] >> 16);
    for (uint32_t k = 0; k < WRITTEN_NUMBERS; k++)
        sum += read_flips[k];
    return sum + returned;
}

int main(int n, char **names)
{
    int library = n == 4 && strcmp(names[1], "library") == 0, plain = n == 4 && strcmp(names[1], "plain") == 0;
    uint32_t sum;
    const struct kind *kind = library || plain ? prepared(names[2], &sum) : 0;
    if (kind == 0) {
        printf("speed: no such operation\n");
        return 1;
    }

    /* once for the answers: where they are others, there is nothing to count */
    operation *run = library ? kind->library : kind->plain;
    run(kind->many);
    if (answers() != sum) {
        printf("speed: %s, %s: the answers add up to %u, and not to %u\n", names[1], names[2], answers(), sum);
        return 1;
    }
    run((uint32_t)atoi(names[3]));
    printf("%llx %llx %u %x %u\n", (unsigned long long)verdicts[0], (unsigned long long)repaired[0], tally[1], block.words[0], returned);
    return 0;
}
