/* The plain version's card image: check, scrub, write, read back, and the lines of the bench. All of an image is checked before anything is
   written. */
#include "plain.h"

enum { TITLE = 0x01, GRIDS = 0x02, BLOCK = 0x03, END = 0x7F };
enum { LONGEST_IMAGE = 32768, LONGEST_TITLE = 24, LONGEST_GRIDS = 4096, MOST_DATA_FIELDS = 16, MOST_NUMBERS = 512 };
enum { HEAD = 3, GRID_BYTES = 8, BLOCK_WORDS = 38, BLOCK_BYTES = 76 };
enum { GRID_NUMBERS = 6, BLOCK_NUMBERS = 5, TALLIES = GRID_NUMBERS + BLOCK_NUMBERS, ERASED_NUMBER = 65535, LONGEST_LINES = 219 };

static const uint64_t LENGTH_NOT_ALLOWED = (uint64_t)3 << 32, BROKEN = (uint64_t)4 << 32, TOO_SHORT = (uint64_t)6 << 32;
static const uint64_t ERASED = (uint64_t)7 << 32;

static inline int is_refusal(uint64_t answer)
{
    return answer >> 32 != 0;
}

static inline uint32_t length_at(const uint8_t *field)
{
    return (uint32_t)field[1] << 8 | field[2];
}

/* The place of the first byte that no title has, or the length. */
static inline uint32_t first_bad(const uint8_t *title, uint32_t length)
{
    uint32_t p = 0;
    while (p < length && (uint32_t)title[p] - 0x20 <= 0x7E - 0x20)
        p++;
    return p;
}

static inline uint8_t *put_head(uint8_t *to, uint32_t tag, uint32_t length)
{
    to[0] = (uint8_t)tag;
    to[1] = (uint8_t)(length >> 8);
    to[2] = (uint8_t)length;
    return to + HEAD;
}

uint64_t plain_image_check(const uint8_t *image, uint64_t n)
{
    if (n > LONGEST_IMAGE)
        return LENGTH_NOT_ALLOWED;
    if (n < HEAD || image[0] != TITLE)
        return BROKEN;
    uint32_t title = length_at(image), left = MOST_DATA_FIELDS, grids = 0, blocks = 0;
    if (title - 1 >= LONGEST_TITLE || HEAD + title > n || first_bad(image + HEAD, title) < title)
        return BROKEN;

    for (uint64_t at = HEAD + title;;) {
        if (n - at < HEAD)
            return BROKEN | at;
        uint32_t tag = image[at], length = length_at(image + at);
        if (tag == GRIDS && length <= LONGEST_GRIDS && length % GRID_BYTES == 0)
            grids += length / GRID_BYTES;
        else if (tag == BLOCK && length == BLOCK_BYTES)
            blocks++;
        else if (tag == END && length == 0)
            return at + HEAD == n ? grids | blocks << 16 : BROKEN | (at + HEAD);
        else
            return BROKEN | at;
        if (left-- == 0 || length > n - at - HEAD)
            return BROKEN | at;
        at += HEAD + length;
    }
}

/* The words are loaded and stored as they stand, low byte first. */
static void scrub_block(uint8_t *bytes, uint32_t tally[BLOCK_NUMBERS])
{
    uint16_t words[BLOCK_WORDS], pattern[BLOCK_WORDS];
    __builtin_memcpy(words, bytes, BLOCK_BYTES);
    uint32_t flips = plain_block_scrub(words, BLOCK_WORDS, pattern);
    tally[0]++;
    if (flips == 0) {
        tally[1]++;
    } else if (flips <= 2) {
        __builtin_memcpy(bytes, words, BLOCK_BYTES);
        tally[2]++;
        tally[4] += flips;
    } else {
        tally[3]++;
    }
}

uint64_t plain_image_scrub(uint8_t *image, uint64_t n, uint32_t tallies[TALLIES], uint64_t *pattern)
{
    uint64_t checked = plain_image_check(image, n);
    if (is_refusal(checked))
        return checked;
    for (unsigned k = 0; k < TALLIES; k++)
        tallies[k] = 0;
    *pattern = 0;
    for (uint8_t *field = image; *field != END; field += HEAD + length_at(field))
        if (*field == GRIDS)
            plain_scrub_bytes(field + HEAD, length_at(field) / GRID_BYTES, tallies, pattern);
        else if (*field == BLOCK)
            scrub_block(field + HEAD, tallies + GRID_NUMBERS);
    return 0;
}

/* Every number is looked at, so that there is one branch for all of them. */
static inline int has_erased(const uint16_t *numbers, uint64_t k)
{
    uint32_t erased = 0;
    for (uint64_t i = 0; i < k; i++)
        erased |= numbers[i] == ERASED_NUMBER;
    return erased != 0;
}

uint64_t plain_image_write(const uint8_t *title, uint64_t t, const uint16_t *numbers, uint64_t k, uint8_t *image, uint64_t n)
{
    if (t - 1 >= LONGEST_TITLE || k > MOST_NUMBERS)
        return LENGTH_NOT_ALLOWED;
    uint32_t bad = first_bad(title, (uint32_t)t);
    uint64_t needed = 3 * HEAD + t + GRID_BYTES * k;
    if (bad < t)
        return BROKEN | bad;
    if (has_erased(numbers, k))
        return ERASED;
    if (n < needed)
        return TOO_SHORT;
    uint8_t *to = put_head(image, TITLE, (uint32_t)t);
    for (uint64_t p = 0; p < t; p++)
        *to++ = title[p];
    to = put_head(to, GRIDS, (uint32_t)(GRID_BYTES * k));
    plain_encode_bytes(numbers, k, to);
    put_head(to + GRID_BYTES * k, END, 0);
    return needed;
}

uint64_t plain_image_read(const uint8_t *image, uint64_t n, uint8_t *title, uint64_t t, uint16_t *data, uint64_t d, uint8_t *flips,
                          uint64_t f)
{
    uint64_t checked = plain_image_check(image, n);
    if (is_refusal(checked))
        return checked;
    uint32_t length = length_at(image), grids = checked & 0xFFFF;
    if (t < length || d < grids || f < grids)
        return TOO_SHORT;
    for (uint32_t p = 0; p < length; p++)
        title[p] = image[HEAD + p];
    for (const uint8_t *field = image; *field != END; field += HEAD + length_at(field))
        if (*field == GRIDS) {
            uint32_t k = length_at(field) / GRID_BYTES;
            plain_decode_bytes(field + HEAD, k, data, flips);
            data += k;
            flips += k;
        }
    return length | grids << 16;
}

static uint8_t *put_text(uint8_t *to, const char *text)
{
    while (*text != 0)
        *to++ = (uint8_t)*text++;
    return to;
}

static uint8_t *put_number(uint8_t *to, uint32_t number)
{
    uint32_t unit = 1;
    while (number / unit >= 10)
        unit *= 10;
    for (; unit > 0; unit /= 10)
        *to++ = (uint8_t)('0' + number / unit % 10);
    return to;
}

/* each number behind its word */
static uint8_t *put_line(uint8_t *to, const char *const *words, const uint32_t *numbers, unsigned n)
{
    for (unsigned k = 0; k < n; k++)
        to = put_number(put_text(to, words[k]), numbers[k]);
    return put_text(to, "\n");
}

static uint8_t *put_refusal(uint8_t *to, uint64_t refusal)
{
    static const char *const words[] = {"refused ", " at "};
    const uint32_t numbers[] = {(uint32_t)(refusal >> 32), (uint32_t)refusal};
    return put_line(to, words, numbers, refusal >= BROKEN ? 2 : 1);
}

uint64_t plain_image_lines(uint8_t *image, uint64_t n, uint8_t *text, uint64_t m)
{
    static const char *const grids[GRID_NUMBERS] = {"grids ", " clean ", " blank ", " mended ", " lost ", " flips "};
    static const char *const blocks[BLOCK_NUMBERS] = {"blocks ", " clean ", " mended ", " lost ", " flips "};
    uint32_t tallies[TALLIES];
    uint64_t pattern;
    if (m < LONGEST_LINES)
        return TOO_SHORT;
    uint64_t scrubbed = plain_image_scrub(image, n, tallies, &pattern);
    if (is_refusal(scrubbed))
        return (uint64_t)(put_refusal(text, scrubbed) - text);
    uint8_t *to = put_text(text, "title ");
    for (uint32_t p = 0; p < length_at(image); p++)
        *to++ = image[HEAD + p];
    to = put_line(put_text(to, "\n"), grids, tallies, GRID_NUMBERS);
    to = put_line(to, blocks, tallies + GRID_NUMBERS, BLOCK_NUMBERS);
    return (uint64_t)(to - text);
}
