/* The second program's card image, and what the bench prints of it. The rules (docs/FORMAT.md) stand above what they say. */
#include "second_card.h"
#include "second.h"
#include "second_block.h"

int snprintf(char *, unsigned long, const char *, ...);

enum { LONGEST_IMAGE = 32768, LONGEST_TITLE = 24, LONGEST_GRIDS = 4096, MOST_NUMBERS = 512, MOST_DATA_FIELDS = 16 };
enum { HEAD = 3, GRID_BYTES = 8, BLOCK_WORDS = 38, BLOCK_BYTES = 76 };
enum { TITLE = 0x01, GRIDS = 0x02, BLOCK = 0x03, END = 0x7F };
enum { LENGTH_NOT_ALLOWED = 3, BROKEN = 4, TOO_SHORT = 6, ERASED = 7, LOST_DATA = 0, LOST_FLIPS = 255, BLANK_FLIPS = 128 };
enum { GRID_NUMBERS = 6, BLOCK_NUMBERS = 5, TALLIES = GRID_NUMBERS + BLOCK_NUMBERS };

/* Fields: one tag byte, two length bytes (high byte first), then the value. */
struct field {
    uint32_t tag, length, value, next;
};

static struct field field_at(const uint8_t *image, uint32_t at)
{
    uint32_t length = 256u * image[at + 1] + image[at + 2], value = at + HEAD;
    return (struct field){image[at], length, value, value + length};
}

/* 20 to 7E hex */
static int is_title_byte(uint8_t byte)
{
    return byte >= 0x20 && byte <= 0x7E;
}

static int is_length_of(uint32_t tag, uint32_t length)
{
    switch (tag) {
    case TITLE:
        return length >= 1 && length <= LONGEST_TITLE;
    case GRIDS:
        return length <= LONGEST_GRIDS && length % GRID_BYTES == 0;
    case BLOCK:
        return length == BLOCK_BYTES;
    case END:
        return length == 0;
    default: /* unknown tag */
        return 0;
    }
}

/* whether a rule fails at the field at this offset, with so many data fields before it */
static int fails(const uint8_t *image, uint32_t n, uint32_t at, uint32_t data_fields)
{
    /* under three bytes left, unknown tag, wrong length, value past the end */
    if (n - at < HEAD)
        return 1;
    struct field f = field_at(image, at);
    if (!is_length_of(f.tag, f.length) || f.next > n)
        return 1;

    /* title missing or repeated: exactly one, first */
    if ((f.tag == TITLE) != (at == 0))
        return 1;

    /* bad title byte, a seventeenth data field */
    for (uint32_t k = f.value; f.tag == TITLE && k < f.next; k++)
        if (!is_title_byte(image[k]))
            return 1;
    return (f.tag == GRIDS || f.tag == BLOCK) && data_fields == MOST_DATA_FIELDS;
}

/* the check of an image, which also tells the title's length */
static struct image_answer look(const uint8_t *image, uint64_t n)
{
    /* Image to check, scrub or read: at most 32,768 bytes. */
    if (n > LONGEST_IMAGE)
        return (struct image_answer){.number = LENGTH_NOT_ALLOWED};

    /* Refused with 4 and the offset of the first field at which a rule fails. Where the last field is no end, that is the image's own
       length, where under three bytes are left. */
    struct image_answer a = {0};
    struct field f = {0};
    for (uint32_t data_fields = 0; f.tag != END;) {
        if (fails(image, (uint32_t)n, f.next, data_fields))
            return (struct image_answer){.number = BROKEN, .place = f.next};
        f = field_at(image, f.next);
        data_fields += f.tag == GRIDS || f.tag == BLOCK;
        a.title += f.tag == TITLE ? f.length : 0;
        a.grids += f.tag == GRIDS ? f.length / GRID_BYTES : 0;
        a.blocks += f.tag == BLOCK;
    }

    /* Bytes behind the end give the offset of the first of them. */
    if (f.next != n)
        return (struct image_answer){.number = BROKEN, .place = f.next};
    return a;
}

struct image_answer second_image_check(const uint8_t *image, uint64_t n)
{
    struct image_answer a = look(image, n);
    a.title = 0;
    return a;
}

/* Each grid is rows 0 to 7, and row r is byte r of the number, lowest byte first. */
static uint64_t load_grid(const uint8_t *rows)
{
    uint64_t number = 0;
    for (unsigned r = 0; r < GRID_BYTES; r++)
        number |= (uint64_t)rows[r] << 8 * r;
    return number;
}

static void store_grid(uint8_t *rows, uint64_t number)
{
    for (unsigned r = 0; r < GRID_BYTES; r++)
        rows[r] = (uint8_t)(number >> 8 * r);
}

/* The same words come again and again, and all codewords are looked at for each: some of the answers are kept. */
static struct answer decode(uint64_t word)
{
    enum { KEPT = 8191 };
    static struct {
        uint64_t word;
        struct answer answer;
        int there;
    } kept[KEPT];
    uint64_t k = word % KEPT;
    if (!kept[k].there || kept[k].word != word) {
        kept[k].word = word;
        kept[k].answer = second_decode(word);
        kept[k].there = 1;
    }
    return kept[k].answer;
}

static void scrub_grid(uint8_t *rows, uint32_t tally[GRID_NUMBERS], uint64_t *pattern)
{
    struct answer a = decode(load_grid(rows));
    store_grid(rows, a.repaired);
    second_count(a, tally, pattern);
}

/* Blocks, clean, mended, lost and flips. Flips is the sum over mended ones. */
static void count_block(struct block_answer a, uint32_t tally[BLOCK_NUMBERS])
{
    tally[0]++;
    if (a.number != 0)
        tally[3]++;
    else if (a.flips == 0)
        tally[1]++;
    else
        tally[2]++;
    tally[4] += a.flips;
}

/* Words in order, low byte first. */
static void scrub_block(uint8_t *bytes, uint32_t tally[BLOCK_NUMBERS])
{
    uint16_t words[BLOCK_WORDS];
    for (unsigned k = 0; k < BLOCK_WORDS; k++)
        words[k] = (uint16_t)(bytes[2 * k] + 256 * bytes[2 * k + 1]);
    struct block_answer a = second_block_scrub(words, BLOCK_WORDS);
    for (unsigned k = 0; k < BLOCK_WORDS; k++) {
        bytes[2 * k] = (uint8_t)(words[k] % 256);
        bytes[2 * k + 1] = (uint8_t)(words[k] / 256);
    }
    count_block(a, tally);
}

struct image_answer second_image_scrub(uint8_t *image, uint64_t n, uint32_t tallies[TALLIES], uint64_t *pattern)
{
    struct image_answer a = look(image, n);
    if (a.number != 0)
        return a;

    /* It works on the value of each data field; all else stays. The pattern is that of the last mended grid over all fields. */
    for (unsigned k = 0; k < TALLIES; k++)
        tallies[k] = 0;
    *pattern = 0;
    for (struct field f = field_at(image, 0); f.tag != END; f = field_at(image, f.next)) {
        for (uint32_t k = 0; f.tag == GRIDS && k < f.length; k += GRID_BYTES)
            scrub_grid(image + f.value + k, tallies, pattern);
        if (f.tag == BLOCK)
            scrub_block(image + f.value, tallies + GRID_NUMBERS);
    }
    return (struct image_answer){0};
}

static uint8_t *write_head(uint8_t *to, uint8_t tag, uint32_t length)
{
    to[0] = tag;
    to[1] = (uint8_t)(length / 256);
    to[2] = (uint8_t)(length % 256);
    return to + HEAD;
}

struct image_answer second_image_write(const uint8_t *title, uint64_t t, const uint16_t *numbers, uint64_t k, uint8_t *image, uint64_t n)
{
    /* Title: 1 to 24 bytes. Numbers to write: 0 to 512. Then the first bad title byte, then number 65,535, then the room: 9 + t + 8n
       bytes. */
    if (t < 1 || t > LONGEST_TITLE || k > MOST_NUMBERS)
        return (struct image_answer){.number = LENGTH_NOT_ALLOWED};
    for (uint32_t place = 0; place < t; place++)
        if (!is_title_byte(title[place]))
            return (struct image_answer){.number = BROKEN, .place = place};
    for (uint32_t i = 0; i < k; i++)
        if (numbers[i] == ERASED_NUMBER)
            return (struct image_answer){.number = ERASED};
    uint32_t needed = (uint32_t)(9 + t + 8 * k);
    if (n < needed)
        return (struct image_answer){.number = TOO_SHORT};

    /* Title, one grids field, end. */
    uint8_t *to = write_head(image, TITLE, (uint32_t)t);
    for (uint32_t place = 0; place < t; place++)
        *to++ = title[place];
    to = write_head(to, GRIDS, (uint32_t)(GRID_BYTES * k));
    for (uint32_t i = 0; i < k; i++, to += GRID_BYTES)
        store_grid(to, second_grid(numbers[i]));
    write_head(to, END, 0);
    return (struct image_answer){.written = needed};
}

/* Reading back gives data 65,535 and flips plus 128 for a blank grid, data 0 and flips 255 for a lost one, flips 0 for a clean one. */
static uint16_t shown_data(struct answer a)
{
    return (uint16_t)(a.number != 0 ? LOST_DATA : a.blank ? ERASED_NUMBER : a.data);
}

static uint8_t shown_flips(struct answer a)
{
    return (uint8_t)(a.number != 0 ? LOST_FLIPS : a.blank ? a.flips + BLANK_FLIPS : a.flips);
}

struct image_answer second_image_read(const uint8_t *image, uint64_t n, uint8_t *title, uint64_t t, uint16_t *data, uint64_t d,
                                      uint8_t *flips, uint64_t f)
{
    /* If any of the three is too short: 6. */
    struct image_answer a = look(image, n);
    if (a.number != 0)
        return a;
    if (t < a.title || d < a.grids || f < a.grids)
        return (struct image_answer){.number = TOO_SHORT};

    /* For each grid its data and its flips, at the grid's number. Blocks are passed over. */
    for (uint32_t k = 0; k < a.title; k++)
        title[k] = image[HEAD + k];
    uint32_t grid = 0;
    for (struct field at = field_at(image, 0); at.tag != END; at = field_at(image, at.next))
        for (uint32_t k = 0; at.tag == GRIDS && k < at.length; k += GRID_BYTES, grid++) {
            struct answer read = decode(load_grid(image + at.value + k));
            data[grid] = shown_data(read);
            flips[grid] = shown_flips(read);
        }
    a.blocks = 0;
    return a;
}

/* The first line is the title; then the two tallies, in decimal. A refusal prints one line. */
uint32_t second_bench(uint8_t *image, uint64_t n, char text[BENCH_TEXT])
{
    uint32_t g[TALLIES], *b = g + GRID_NUMBERS;
    uint64_t pattern;
    struct image_answer a = second_image_scrub(image, n, g, &pattern);
    if (a.number == BROKEN)
        return (uint32_t)snprintf(text, BENCH_TEXT, "refused 4 at %u\n", a.place);
    if (a.number != 0)
        return (uint32_t)snprintf(text, BENCH_TEXT, "refused %u\n", a.number);
    return (uint32_t)snprintf(text, BENCH_TEXT,
                              "title %.*s\n"
                              "grids %u clean %u blank %u mended %u lost %u flips %u\n"
                              "blocks %u clean %u mended %u lost %u flips %u\n",
                              (int)look(image, n).title, (const char *)image + HEAD, g[0], g[1], g[2], g[3], g[4], g[5], b[0], b[1], b[2],
                              b[3], b[4]);
}
