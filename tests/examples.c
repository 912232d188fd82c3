/* The cards of `examples/`, made by the second program: `examples DIR` writes them to DIR, which is there. */
#include "second_block.h"
#include "second_card.h"

int snprintf(char *, unsigned long, const char *, ...);
void *memcpy(void *, const void *, unsigned long);
void *fopen(const char *, const char *);
unsigned long fwrite(const void *, unsigned long, unsigned long, void *);
int fclose(void *);

/* the name, and its letters two by two as the numbers of five grids, low byte first */
enum { TITLE = 10, NUMBERS = 5, FIRST_GRID = 3 + TITLE + 3, END = FIRST_GRID + 8 * NUMBERS, WRITTEN = END + 3 };
enum { BLOCK_WORDS = 38, BLOCK_BYTES = 76, LOST_BLOCK = END + 3 + BLOCK_BYTES + 3, CUT_OFF = 40 };
static const uint8_t name[] = "Mira Stern";

/* a fresh card, and that of a logger: its readings, and behind them erased grids */
enum { FRESH_TITLE = 10, FRESH_GRIDS = 512, FRESH = 9 + FRESH_TITLE + 8 * FRESH_GRIDS };
enum { LOGGER_TITLE = 9, READINGS = 5, LOGGER_GRIDS = 16, LOGGER = 9 + LOGGER_TITLE + 8 * LOGGER_GRIDS };
static const uint16_t readings[READINGS] = {512, 511, 498, 473, 441};

static int write_card(const char *folder, const char *card, const uint8_t *image, unsigned long n)
{
    char path[300];
    snprintf(path, sizeof path, "%s/%s", folder, card);
    void *file = fopen(path, "w");
    return file != 0 && fwrite(image, 1, n, file) == n && fclose(file) == 0;
}

static void write_name(uint8_t image[WRITTEN])
{
    uint16_t numbers[NUMBERS];
    for (unsigned k = 0; k < NUMBERS; k++)
        numbers[k] = (uint16_t)(name[2 * k] + 256 * name[2 * k + 1]);
    second_image_write(name, TITLE, numbers, NUMBERS, image, WRITTEN);
}

/* writes so many of the readings; the other grids are all ones, as flash comes */
static void write_readings(const char *title, unsigned length, unsigned logged, unsigned grids, uint8_t *image)
{
    uint16_t numbers[FRESH_GRIDS] = {0};
    for (unsigned k = 0; k < logged; k++)
        numbers[k] = readings[k];
    second_image_write((const uint8_t *)title, length, numbers, grids, image, 9 + length + 8 * grids);
    for (unsigned k = 8 * logged; k < 8 * grids; k++)
        image[3 + length + 3 + k] = 0xFF;
}

/* switches the lamps of one of these grids that are 1 here, row 0 in the lowest byte */
static void switch_lamps(uint8_t *grids, unsigned grid, uint64_t lamps)
{
    for (unsigned r = 0; r < 8; r++)
        grids[8 * grid + r] ^= (uint8_t)(lamps >> 8 * r);
}

/* a block field with three flips in three rows, and an end, in the place of the end */
static void add_lost_block(uint8_t image[LOST_BLOCK])
{
    uint16_t words[BLOCK_WORDS] = {0};
    for (unsigned k = 0; k < NUMBERS; k++)
        words[k] = (uint16_t)(name[2 * k] + 256 * name[2 * k + 1]);
    second_block(words, words);
    words[5] ^= 1 << 7;
    words[9] ^= 1 << 11;
    words[14] ^= 1 << 2;
    uint8_t *to = image + END;
    *to++ = 0x03;
    *to++ = 0;
    *to++ = BLOCK_BYTES;
    for (unsigned k = 0; k < BLOCK_WORDS; k++) {
        *to++ = (uint8_t)(words[k] % 256);
        *to++ = (uint8_t)(words[k] / 256);
    }
    *to++ = 0x7F;
    *to++ = 0;
    *to++ = 0;
}

/* seven lamps on a diagonal, one alone, seven of one row, and three of each of two rows; one grid stays clean */
static void damage(uint8_t image[WRITTEN])
{
    switch_lamps(image + FIRST_GRID, 0, 0x0102040810204000);
    switch_lamps(image + FIRST_GRID, 1, 0x0000000000000001);
    switch_lamps(image + FIRST_GRID, 3, 0x00007F0000000000);
    switch_lamps(image + FIRST_GRID, 4, 0x0000000000070007);
}

/* three lamps on a diagonal, seven of one column, and, of an erased grid, five of one row */
static void damage_logger(uint8_t image[LOGGER])
{
    uint8_t *grids = image + 3 + LOGGER_TITLE + 3;
    switch_lamps(grids, 1, 0x0000001008040000);
    switch_lamps(grids, 3, 0x0080808080808080);
    switch_lamps(grids, 9, 0x0000001F00000000);
}

int main(int n, char **words)
{
    if (n != 2)
        return 1;
    uint8_t written[WRITTEN], damaged[WRITTEN], lost[LOST_BLOCK], fresh[FRESH], logger[LOGGER];
    write_name(written);
    memcpy(damaged, written, WRITTEN);
    damage(damaged);

    /* all eight lamps of a diagonal */
    memcpy(lost, written, WRITTEN);
    switch_lamps(lost + FIRST_GRID, 1, 0x8040201008040201);
    add_lost_block(lost);

    write_readings("Fresh Card", FRESH_TITLE, 0, FRESH_GRIDS, fresh);
    write_readings("Balloon 7", LOGGER_TITLE, READINGS, LOGGER_GRIDS, logger);
    damage_logger(logger);
    return !(write_card(words[1], "written.img", written, WRITTEN) && write_card(words[1], "damaged.img", damaged, WRITTEN) &&
             write_card(words[1], "lost.img", lost, LOST_BLOCK) && write_card(words[1], "broken.img", damaged, CUT_OFF) &&
             write_card(words[1], "fresh.img", fresh, FRESH) && write_card(words[1], "logger.img", logger, LOGGER));
}
