/* The second program made to meet what no word has, to see that it looks for it: `ties grid`, `ties block`, `ties candidates` and
   `ties trials`. Each judges a word by a radius, in a code, or by what a candidate may pay, that is none of ours. It has to stop there, with
   status 1. */
#include "second.h"
#include "second_block.h"

int strcmp(const char *, const char *);

static void grid(void)
{
    /* 8 places from the grid of 0 and from that of 1 */
    second_radius = 8;
    second_decode(0x000000B1000000B1);
}

static void block(void)
{
    /* without the system parity row 0, column 0 alone makes words 0, 32, 34 and 35 one; the other codeword is zero */
    uint16_t two_of_four[38] = {[0] = 1, [32] = 1};
    second_block_system = 0;
    second_block_scrub(two_of_four, 38);
}

static void candidates(void)
{
    /* two rows are not those of the grid of 0, and two others not those of the grid of 1: both pay 4 */
    second_most_paid = 4;
    second_decode(0x000000B1000000B1);
}

static void trials(void)
{
    /* seven places from the grid of 0, which pays 4 in trial one and 3 in trial two */
    second_most_paid = 2;
    second_decode(0x000000B0000000B1);
}

int main(int n, char **words)
{
    static const struct {
        const char *name;
        void (*meet)(void);
    } cases[] = {{"grid", grid}, {"block", block}, {"candidates", candidates}, {"trials", trials}};
    for (unsigned k = 0; n == 2 && k < sizeof cases / sizeof *cases; k++)
        if (strcmp(words[1], cases[k].name) == 0)
            cases[k].meet();
    return 0;
}
