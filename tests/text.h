/* Words, bytes and lists as text: hex and decimal, and `-` where there is nothing. The readers return 0 if the text is not what they read.
   What they make stands until `take_back`. */
#pragma once
#include <stdint.h>

int printf(const char *, ...);
int strcmp(const char *, const char *);
unsigned long strlen(const char *);
void *calloc(unsigned long, unsigned long);
void free(void *);

static void *lent[8];
static unsigned lent_count;

/* zeros; one place more than asked for, so that the empty slice has a place to point to */
static inline void *lend(uint64_t n, uint64_t size)
{
    return lent[lent_count++] = calloc(n + 1, size);
}

static inline void take_back(void)
{
    while (lent_count > 0)
        free(lent[--lent_count]);
}

/* the value of a hex digit, 16 for anything else */
static inline unsigned digit(char c)
{
    return c >= '0' && c <= '9' ? c - '0' : c >= 'A' && c <= 'F' ? c - 'A' + 10 : c >= 'a' && c <= 'f' ? c - 'a' + 10 : 16;
}

static inline int read_hex(const char *text, unsigned digits, uint64_t *value)
{
    for (*value = 0; digits > 0 && digit(*text) < 16; digits--)
        *value = *value << 4 | digit(*text++);
    return digits == 0 && *text == 0;
}

static inline int read_number(const char *text, uint64_t most, uint64_t *value)
{
    const char *first = text;
    for (*value = 0; digit(*text) < 10 && *value <= most; text++)
        *value = 10 * *value + digit(*text);
    return text != first && *text == 0 && *value <= most;
}

static inline uint8_t *read_bytes(const char *text, uint64_t *n)
{
    uint64_t length = strcmp(text, "-") == 0 ? 0 : strlen(text);
    uint8_t *bytes = lend(length / 2, 1);
    for (*n = 0; 2 * *n < length; *n += 1) {
        unsigned high = digit(text[2 * *n]), low = digit(text[2 * *n + 1]);
        if (high == 16 || low == 16)
            return 0;
        bytes[*n] = (uint8_t)(high << 4 | low);
    }
    return bytes;
}

/* n words of so many hex digits, or with 0 digits decimal numbers of 16 bits; no word and `-` are the empty list */
static inline uint64_t *read_list(char **words, uint64_t *n, unsigned digits)
{
    if (*n == 1 && strcmp(words[0], "-") == 0)
        *n = 0;
    uint64_t *list = lend(*n, sizeof *list);
    for (uint64_t k = 0; k < *n; k++)
        if (!(digits == 0 ? read_number(words[k], 65535, &list[k]) : read_hex(words[k], digits, &list[k])))
            return 0;
    return list;
}

/* a list of words of 16 bits, or 0 if there is none */
static inline uint16_t *narrow(const uint64_t *list, uint64_t n)
{
    uint16_t *narrowed = list == 0 ? 0 : lend(n, sizeof *narrowed);
    for (uint64_t k = 0; list != 0 && k < n; k++)
        narrowed[k] = (uint16_t)list[k];
    return narrowed;
}

/* The printers print a whole list, and `-` for the empty one. */
static inline void print_bytes(const uint8_t *bytes, uint64_t n)
{
    for (uint64_t k = 0; k < n; k++)
        printf("%02X", bytes[k]);
    printf(n == 0 ? "-" : "");
}

static inline void print_grids(const uint64_t *grids, uint64_t n)
{
    for (uint64_t k = 0; k < n; k++)
        printf(k == 0 ? "%016llX" : " %016llX", (unsigned long long)grids[k]);
    printf(n == 0 ? "-" : "");
}

static inline void print_words(const uint16_t *words, uint64_t n)
{
    for (uint64_t k = 0; k < n; k++)
        printf(k == 0 ? "%04X" : " %04X", words[k]);
    printf(n == 0 ? "-" : "");
}
