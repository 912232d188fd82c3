/* The library's calls by hand: reads a call a line and answers each with a line. `tests/calls` builds it and runs it. Words and bytes are
   hex, numbers decimal, and `-` is the empty slice or list.

     genc N                                 HEX16
     gdec HEX16                             clean|mended|lost data D flips N repaired HEX16 pattern HEX16 trials N, or
                                            blank flips N repaired HEX16 pattern HEX16 trials N
     page HEX16 ..                          G C B M L F | pattern HEX16 | HEX16 ..
     benc HEX4 ..                           HEX4 ..
     bscrub HEX4 ..                         clean|mended flips N HEX4 .. pattern HEX4 ..
     icheck HEX                             grids G blocks B
     iscrub HEX                             G C B M L F | G C M L F | pattern HEX16 | HEX
     iread HEX TITLEROOM DATAROOM FLIPROOM  title T grids G | HEX | D:F D:F ..
     iwrite TITLE ROOM N N ..               HEX
     help                                   CALL WORDS; CALL WORDS; ..

   G C B M L F is a tally of grids: all, clean, blank, mended, lost, flips; that of blocks has no B. D:F are the data and the flips of a
   grid, 65535 and the flips plus 128 of a blank one. The blocks have as many words as they are given, the one that `benc` writes has 38. A
   pattern has ones in the places that were flipped; that of a page or an image is the last mended grid's, that of a block has 38 words. A
   refusal is `refused N`, behind which `bscrub` has the pattern too, and where there is a place of the break `refused 4 at PLACE`. A line
   that is no such call, or lends more than 1,000,000 places, is answered `?`, and standard error has why. */
#include "library.h"
#include "text.h"

int fflush(void *);
int fprintf(void *, const char *, ...);
long getline(char **, unsigned long *, void *);
extern void *stdin, *stderr;

enum { BLOCK_WORDS = 38, NUMBERS = 6, BLOCK_NUMBERS = 5, TALLIES = NUMBERS + BLOCK_NUMBERS };
enum { LARGEST = 65535, LONGEST_ROOM = 1000000, LOST = 1, BROKEN = 4 };

/* what a call returned, if it is a refusal */
static int refused(uint32_t number, uint64_t place)
{
    if (number == BROKEN)
        printf("refused 4 at %u", (uint32_t)place);
    else if (number != 0)
        printf("refused %u", number);
    return number != 0;
}

static int image_refused(uint64_t returned)
{
    return refused((uint32_t)(returned >> 32), returned);
}

static void print_tally(const uint32_t *tally, unsigned numbers)
{
    for (unsigned k = 0; k < numbers; k++)
        printf("%u ", tally[k]);
    printf("| ");
}

static void print_pattern(uint64_t pattern)
{
    printf("pattern ");
    print_grids(&pattern, 1);
}

/* Each call is given the words behind its name. It returns 0 if they are none of its. */
static int genc(char **words, uint64_t n)
{
    uint64_t value, grid;
    if (n != 1 || !read_number(words[0], LARGEST, &value))
        return 0;
    if (!refused(grid_encode((uint16_t)value, &grid), 0))
        print_grids(&grid, 1);
    return 1;
}

static int gdec(char **words, uint64_t n)
{
    uint64_t read, verdict = 0, repaired = 0, pattern = 0;
    if (n != 1 || !read_hex(words[0], 16, &read))
        return 0;
    grid_decode(&read, 1, &verdict, 1, &repaired, 1, &pattern, 1);
    unsigned data = verdict & LARGEST, flips = verdict >> 16 & 255, number = verdict >> 24 & 15, trials = verdict >> 28 & 15;
    unsigned blank = (unsigned)(verdict >> 32);
    if (blank)
        printf("blank ");
    else
        printf("%s data %u ", number == LOST ? "lost" : flips == 0 ? "clean" : "mended", data);
    printf("flips %u repaired ", flips);
    print_grids(&repaired, 1);
    printf(" ");
    print_pattern(pattern);
    printf(" trials %u", trials);
    return 1;
}

static int page(char **words, uint64_t n)
{
    uint32_t tally[NUMBERS];
    uint64_t pattern, *grids = read_list(words, &n, 16);
    if (grids == 0)
        return 0;
    if (!refused(page_scrub(grids, n, tally, NUMBERS, &pattern), 0)) {
        print_tally(tally, NUMBERS);
        print_pattern(pattern);
        printf(" | ");
        print_grids(grids, n);
    }
    return 1;
}

static int benc(char **words, uint64_t n)
{
    uint64_t *list = read_list(words, &n, 4);
    uint16_t block[BLOCK_WORDS], *values = narrow(list, n);
    if (values == 0)
        return 0;
    if (!refused(block_encode(values, n, block, BLOCK_WORDS), 0))
        print_words(block, BLOCK_WORDS);
    return 1;
}

static int bscrub(char **words, uint64_t n)
{
    uint64_t *list = read_list(words, &n, 4);
    uint16_t pattern[BLOCK_WORDS], *block = narrow(list, n);
    if (block == 0)
        return 0;
    uint32_t returned = block_scrub(block, n, pattern);
    if (!refused(returned >> 8, 0)) {
        printf("%s flips %u ", returned == 0 ? "clean" : "mended", returned);
        print_words(block, n);
    }
    printf(" pattern ");
    print_words(pattern, BLOCK_WORDS);
    return 1;
}

static int icheck(char **words, uint64_t n)
{
    uint8_t *image = n == 1 ? read_bytes(words[0], &n) : 0;
    if (image == 0)
        return 0;
    uint64_t returned = image_check(image, n);
    if (!image_refused(returned))
        printf("grids %u blocks %u", (unsigned)(returned & LARGEST), (unsigned)(returned >> 16));
    return 1;
}

static int iscrub(char **words, uint64_t n)
{
    uint32_t tallies[TALLIES];
    uint64_t pattern;
    uint8_t *image = n == 1 ? read_bytes(words[0], &n) : 0;
    if (image == 0)
        return 0;
    if (!image_refused(image_scrub(image, n, tallies, TALLIES, &pattern))) {
        print_tally(tallies, NUMBERS);
        print_tally(tallies + NUMBERS, BLOCK_NUMBERS);
        print_pattern(pattern);
        printf(" | ");
        print_bytes(image, n);
    }
    return 1;
}

static int iread(char **words, uint64_t n)
{
    uint64_t rooms[3];
    uint8_t *image = n == 4 ? read_bytes(words[0], &n) : 0;
    if (image == 0)
        return 0;
    for (unsigned k = 0; k < 3; k++)
        if (!read_number(words[1 + k], LONGEST_ROOM, &rooms[k]))
            return 0;
    uint8_t *title = lend(rooms[0], 1), *flips = lend(rooms[2], 1);
    uint16_t *data = lend(rooms[1], sizeof *data);
    uint64_t returned = image_read(image, n, title, rooms[0], data, rooms[1], flips, rooms[2]), grids = returned >> 16;
    if (!image_refused(returned)) {
        printf("title %u grids %u | ", (unsigned)(returned & LARGEST), (unsigned)grids);
        print_bytes(title, returned & LARGEST);
        printf(grids == 0 ? " | -" : " |");
        for (uint64_t k = 0; k < grids; k++)
            printf(" %u:%u", data[k], flips[k]);
    }
    return 1;
}

static int iwrite(char **words, uint64_t n)
{
    uint64_t t, room, k = n - 2;
    uint8_t *title = n >= 2 ? read_bytes(words[0], &t) : 0;
    if (title == 0 || !read_number(words[1], LONGEST_ROOM, &room))
        return 0;
    uint64_t *list = read_list(words + 2, &k, 0);
    uint16_t *numbers = narrow(list, k);
    if (numbers == 0)
        return 0;
    uint8_t *image = lend(room, 1);
    uint64_t returned = image_write(title, t, numbers, k, image, room);
    if (!image_refused(returned))
        print_bytes(image, returned);
    return 1;
}

static int help(char **, uint64_t);

/* the words behind a call's name, as they are called above and as a sentence has them */
static const struct call {
    const char *name, *words, *wants;
    int (*answer)(char **, uint64_t);
} calls[] = {
    {"genc", "N", "one number up to 65535", genc},
    {"gdec", "HEX16", "one number of 16 hex digits", gdec},
    {"page", "HEX16 ..", "numbers of 16 hex digits, or -", page},
    {"benc", "HEX4 ..", "numbers of 4 hex digits, or -", benc},
    {"bscrub", "HEX4 ..", "numbers of 4 hex digits, or -", bscrub},
    {"icheck", "HEX", "the bytes of an image, each of 2 hex digits, as one word, or -", icheck},
    {"iscrub", "HEX", "the bytes of an image, each of 2 hex digits, as one word, or -", iscrub},
    {"iread", "HEX TITLEROOM DATAROOM FLIPROOM", "the bytes of an image in hex, or -, and three numbers up to 1000000", iread},
    {"iwrite", "TITLE ROOM N ..", "the bytes of a title in hex, or -, a number up to 1000000, and numbers up to 65535", iwrite},
    {"help", "", "no word", help},
};
enum { CALLS = sizeof calls / sizeof *calls };

static int help(char **words, uint64_t n)
{
    (void)words;
    for (unsigned k = 0; n == 0 && k < CALLS; k++)
        printf("%s%s%s%s", k == 0 ? "" : "; ", calls[k].name, *calls[k].words == 0 ? "" : " ", calls[k].words);
    return n == 0;
}

/* the words of a line, which are taken apart where they stand; how many there are */
static uint64_t split(char *line, uint64_t length, char **words)
{
    uint64_t n = 0;
    for (uint64_t k = 0; k < length; k++)
        if (line[k] == ' ' || line[k] == '\t' || line[k] == '\r' || line[k] == '\n')
            line[k] = 0;
        else if (k == 0 || line[k - 1] == 0)
            words[n++] = line + k;
    return n;
}

static const struct call *find_call(const char *name)
{
    for (unsigned k = 0; k < CALLS; k++)
        if (strcmp(name, calls[k].name) == 0)
            return &calls[k];
    return 0;
}

/* It returns 0 if the line, which is number `at`, is no call, and has then said why. */
static int answer(char *line, uint64_t length, unsigned long long at)
{
    char **words = lend(length, sizeof *words);
    uint64_t n = strlen(line) == length ? split(line, length, words) : 0;
    const struct call *call = n > 0 ? find_call(words[0]) : 0;
    if (call != 0 && call->answer(words + 1, n - 1))
        return 1;
    if (n == 0)
        fprintf(stderr, "line %llu: it has no word, or a byte 00\n", at);
    else if (call == 0)
        fprintf(stderr, "line %llu: no call is named \"%.40s\"; help lists them\n", at, words[0]);
    else
        fprintf(stderr, "line %llu: %s: it wants %s\n", at, call->name, call->wants);
    return 0;
}

int main(void)
{
    char *line = 0;
    unsigned long size = 0;
    unsigned long long at = 0;
    for (long length; (length = getline(&line, &size, stdin)) > 0;) {
        printf(answer(line, (uint64_t)length, ++at) ? "\n" : "?\n");
        fflush(0);
        take_back();
    }
    return 0;
}
