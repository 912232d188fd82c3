/* The fault campaign: damaged words of both codes through the library and the second program, and a table of what became of them.
   `tests/campaign` builds it and runs it.

   `campaign [SEED [COUNT]]` flips every set of up to 3 places of a grid and of up to 2 places of a block, and of more places COUNT drawn
   sets for each number of flips. The data is drawn for each word, from 0 to 65,534 for a grid. Then it does the same to the erased grid,
   which is all ones. By the library's answer a word is

     undone   if what was written has come back, as blank if that is the erased grid and as data if not, the flips are counted right, and
              the pattern is the flips;
     refused  if it is lost, stays as it was read, and the pattern is zero;
     wrong    in all other cases, among which are blank where a number was written, and a number where the grid was erased.

   For a grid the last column, `trials 2`, is how many words took two trials.

   The status is 1 if the two answers to a word differ in anything, if up to the radius a word is not undone, or if a grid with 8 flips is
   not refused; the first such word is shown with both answers. What becomes of more flips is shown as it is: nobody can tell them from
   fewer flips of another codeword.

   `campaign SIDE BIT`, where SIDE is `library` or `second program`, runs one code with that bit of one answer of that side flipped: 0 to 31
   in the verdict of a grid, 32 to 63 in rows 0 to 3 of the repaired grid, 64 to 95 in the number that is returned for a block, 96 to 127 in
   the first two words of the block, 128 to 191 in the pattern of a grid, 192 to 255 in the first four words of that of a block. It has to
   fail. */
#include "codes.h"
#include "draw.h"
#include "flip.h"
#include "text.h"

int fprintf(void *, const char *, ...);
int fflush(void *);
int isatty(int);
int memcmp(const void *, const void *, unsigned long);
extern void *stderr;

enum { STANDARD_ERROR = 2, BAD_ARGUMENTS = 2 };

/* of SEED and COUNT; ten times as much is still a number of 64 bits */
static const uint64_t largest = 1000000000000000000;
static uint64_t count = 1000000;

/* the pattern of no flips */
static const union bits none = {.bytes = {0}};

/* a row of the table; `all` is how many words it will have */
struct row {
    unsigned flips;
    uint64_t all, words, undone, refused, wrong, two;
};

/* a code's campaign, with the first word that fails */
struct campaign {
    const struct code *code;
    struct test agree, promise;
    struct damaged word;
    struct said library, second;
};

/* how many sets of n places there are */
static uint64_t sets(unsigned places, unsigned n)
{
    uint64_t k = 1;
    for (unsigned p = 0; p < n; p++)
        k = k * (places - p) / (p + 1);
    return k;
}

/* from a set of n places, in ascending order, to the next one; from the last one to none */
static void next_set(unsigned *set, unsigned n, unsigned places)
{
    unsigned p = n;
    while (p > 0 && set[p - 1] == places - n + p - 1)
        p--;
    if (p == 0)
        return;
    set[p - 1]++;
    for (; p < n; p++)
        set[p] = set[p - 1] + 1;
}

static void damage(const struct code *c, struct damaged *d, const unsigned *places, unsigned n)
{
    d->undone = c->write(&d->written, n);
    d->read = d->written;
    d->flips = none;
    for (unsigned k = 0; k < n; k++)
        d->flips.bytes[places[k] / 8] |= (uint8_t)(1 << places[k] % 8);
    for (unsigned k = 0; k < c->places / 8; k++)
        d->read.bytes[k] ^= d->flips.bytes[k];
}

/* what is flipped, once: in the number returned and in the first bytes that were left, and in those of the pattern */
static void flip(struct said *a, uint64_t *flips)
{
    a->returned ^= flips[0] & UINT32_MAX;
    a->left.grid ^= flips[0] >> 32;
    a->pattern.grid ^= flips[2];
    flips[0] = flips[2] = 0;
}

/* whether a bit of one of the code's answers is to be flipped */
static int has_flip(const struct code *c)
{
    return (c->flip_library[0] | c->flip_library[2] | c->flip_second[0] | c->flip_second[2]) != 0;
}

/* whether that is what a side has said */
static int says(const struct code *c, const struct said *a, uint64_t returned, const union bits *left, const union bits *pattern)
{
    unsigned bytes = c->places / 8;
    return a->returned == returned && memcmp(&a->left, left, bytes) == 0 && memcmp(&a->pattern, pattern, bytes) == 0;
}

static void judge(struct campaign *c, struct row *r, const struct damaged *d, struct said library, struct said second)
{
    const struct code *code = c->code;
    uint64_t at = c->agree.compared;
    flip(&library, code->flip_library);
    flip(&second, code->flip_second);
    uint64_t trials = library.returned & code->trials;
    int agree = says(code, &library, second.returned, &second.left, &second.pattern);
    int undone = says(code, &library, d->undone | trials, &d->written, &d->flips);
    int refused = says(code, &library, code->lost, &d->read, &none);
    int kept = r->flips <= code->undone ? undone : r->flips <= code->refused ? refused : 1;
    if (!(agree && kept) && c->agree.differ + c->promise.differ == 0) {
        c->word = *d;
        c->library = library;
        c->second = second;
    }
    compare(&c->agree, agree, 1, at);
    if (r->flips <= code->refused)
        compare(&c->promise, kept, 1, at);
    r->words++;
    r->undone += undone;
    r->refused += refused;
    r->wrong += !undone && !refused;
    r->two += code->trials != 0 && trials == code->two;
}

/* on a terminal a line that is rewritten, and taken away for the row of the table; elsewhere a line where a row is done */
static void progress(const struct code *c, const struct row *r)
{
    int done = r->words == r->all, terminal = isatty(STANDARD_ERROR);
    if (terminal || done)
        fprintf(stderr, "%s%s, %u flips: %llu of %llu%s", terminal ? "\r" : "", c->name, r->flips, (unsigned long long)r->words,
                (unsigned long long)r->all, terminal ? "" : "\n");
    if (terminal && done)
        fprintf(stderr, "\r\033[K");
}

static void fill_row(struct campaign *c, struct row *r, int every)
{
    static struct damaged words[SLICE];
    static struct said library[SLICE], second[SLICE];
    unsigned places[PLACES];
    for (unsigned p = 0; p < PLACES; p++)
        places[p] = p;
    while (r->words < r->all) {
        uint64_t n = r->all - r->words < SLICE ? r->all - r->words : SLICE;
        for (uint64_t k = 0; k < n; k++) {
            if (!every)
                draw_front(places, c->code->places, r->flips);
            damage(c->code, &words[k], places, r->flips);
            if (every)
                next_set(places, r->flips, c->code->places);
        }
        c->code->answer(words, n, library, second);
        for (uint64_t k = 0; k < n; k++)
            judge(c, r, &words[k], library[k], second[k]);
        progress(c->code, r);
    }
}

static void print_said(const struct code *c, const char *side, const struct said *a)
{
    printf("  %s returned %08llX and left ", side, (unsigned long long)a->returned);
    c->print(&a->left);
    printf(", pattern ");
    c->print(&a->pattern);
    printf("\n");
}

static void print_failed(const struct campaign *c)
{
    printf("the first %s that fails was written as ", c->code->name);
    c->code->print(&c->word.written);
    printf("\n  and read as ");
    c->code->print(&c->word.read);
    printf("\n");
    print_said(c->code, "the library", &c->library);
    print_said(c->code, "the second program", &c->second);
}

/* It returns whether something has failed. */
static int report_campaign(struct campaign *c)
{
    char agree[100], promise[100];
    snprintf(agree, sizeof agree, "campaign, %s, the library beside the second program", c->code->name);
    snprintf(promise, sizeof promise, "campaign, %s, %s", c->code->name, c->code->promise);
    c->agree.name = agree;
    c->promise.name = promise;
    int failed = c->agree.differ + c->promise.differ != 0;
    if (failed)
        print_failed(c);
    report_drawn(c->agree);
    report_drawn(c->promise);
    return failed;
}

static int run(const struct code *code)
{
    struct campaign c = {.code = code};
    const char *last = code->trials != 0 ? "    trials 2" : "";
    printf("%s, seed %llu\nflips       words      undone     refused       wrong%s\n", code->name, (unsigned long long)seed, last);
    for (unsigned k = 0; k < code->rows; k++) {
        int every = code->flips[k] <= code->every;
        struct row r = {.flips = code->flips[k], .all = every ? sets(code->places, code->flips[k]) : count};
        fill_row(&c, &r, every);
        printf("%5u %11llu %11llu %11llu %11llu", r.flips, (unsigned long long)r.words, (unsigned long long)r.undone,
               (unsigned long long)r.refused, (unsigned long long)r.wrong);
        if (code->trials != 0)
            printf(" %11llu", (unsigned long long)r.two);
        printf("   %s\n", every ? "every set of places" : "drawn");
        fflush(0);
    }
    return report_campaign(&c);
}

/* Reads `SEED COUNT` behind the program's name, as much of it as is there. It returns 0 if that is not what is there. */
static int read_arguments(int n, char **words)
{
    return n <= 3 && (n < 2 || read_number(words[1], largest, &seed)) && (n < 3 || (read_number(words[2], largest, &count) && count > 0));
}

int main(int n, char **words)
{
    if (n == 3 && read_flip(words)) {
        count = 1;
        return run(has_flip(&grid) ? &grid : &block);
    }
    if (!read_arguments(n, words)) {
        fprintf(stderr, "usage: tests/campaign [SEED [COUNT]], both decimal, COUNT from 1\n");
        return BAD_ARGUMENTS;
    }
    struct code erased = erased_grid();
    int grid_failed = run(&grid), block_failed = run(&block), erased_failed = run(&erased);
    return grid_failed || block_failed || erased_failed;
}
