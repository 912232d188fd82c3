/* The library's grid beside the second program's. `grid` is called as `flip.h` says; the bits are 0 to 63 in a grid, 64 to 95 in the number
   that is returned, and a seed alters nothing, since nothing is drawn. */
#include "draw.h"
#include "flip.h"
#include "library.h"
#include "plain.h"
#include "second.h"

enum { VALUES = 65536, FLIPPED = 40961 };

/* what an encoder returned, and the grid, where something else stood before */
struct encoded {
    uint64_t grid;
    uint32_t returned;
};

static struct encoded encode(uint32_t encoder(uint16_t, uint64_t *), uint32_t number)
{
    struct encoded e = {.grid = word(number)};
    e.returned = encoder((uint16_t)number, &e.grid);
    return e;
}

static void compare_encoded(struct test *t, struct encoded a, struct encoded b, uint64_t at)
{
    compare(t, a.returned, b.returned, at);
    compare(t, a.grid, b.grid, at);
}

static void flip(struct encoded *e, const uint64_t flips[FLIP_WORDS])
{
    e->grid ^= flips[0];
    e->returned ^= (uint32_t)flips[1];
}

static void every_grid(void)
{
    struct test t = {.name = "encode, every number"};
    for (uint32_t d = 0; d < VALUES; d++) {
        struct encoded library = encode(grid_encode, d), second = encode(second_encode, d);
        if (d == FLIPPED) {
            flip(&library, flip_library);
            flip(&second, flip_second);
        }
        compare_encoded(&t, library, second, d);
    }
    report(&t);
}

/* 0 to 65,534 are written, each as its codeword, and 65,535 alone is refused: 7, and the grid is 0 */
static void refused_numbers(void)
{
    struct test t = {.name = "encode, 65535 alone is refused"};
    for (uint32_t d = 0; d < VALUES; d++) {
        struct encoded expected = {.grid = second_grid((uint16_t)d)}, refused = {.returned = 7};
        compare_encoded(&t, encode(grid_encode, d), d < VALUES - 1 ? expected : refused, d);
    }
    report(&t);
}

static void plain_version(void)
{
    struct test t = {.name = "the plain version's encode, every number"};
    for (uint32_t d = 0; d < VALUES; d++) {
        compare_encoded(&t, encode(plain_encode, d), encode(second_encode, d), d);
        compare(&t, plain_grid((uint16_t)d), second_grid((uint16_t)d), d);
    }
    report(&t);
}

static void worked_numbers(void)
{
    static const struct {
        uint16_t data;
        uint64_t grid;
    } worked[] = {
        {0, 0},
        {1, 0xB100B1B1000000B1},
        {8, 0xE800E8E8000000E8},
        {4096, 0x00B1B1B1B1000000},
        {15, 0xFF00FFFF000000FF},
    };
    struct test t = {.name = "encode, the worked numbers"};
    for (unsigned k = 0; k < sizeof worked / sizeof *worked; k++) {
        struct encoded expected = {.grid = worked[k].grid};
        compare_encoded(&t, encode(grid_encode, worked[k].data), expected, k);
        compare_encoded(&t, encode(second_encode, worked[k].data), expected, k);
    }
    compare(&t, second_grid(65535), 0xFFFFFFFFFFFFFFFF, 65535);
    report(&t);
}

static void rows(void)
{
    struct test there = {.name = "rows of a number"}, back = {.name = "a number from its rows"};
    for (uint64_t k = 0; k < 20000 + 64; k++) {
        uint64_t w = k < 64 ? (uint64_t)1 << k : word(k);
        for (uint64_t r = 0; r < 10; r++)
            compare(&there, grid_row(w, r), r < 8 ? w >> 8 * r & 255 : 0, k);
        compare(&there, grid_row(w, UINT64_MAX), 0, k);
        compare(&back, grid_there_and_back(w), w, k);
    }
    report(&there);
    report(&back);
}

static void constants(void)
{
    struct test t = {.name = "radius, length and distance"};
    unsigned nearest = 64;
    for (uint32_t k = 0; k < 16; k++) {
        uint32_t d = k == 0 ? 0 : (uint32_t)(word(k) % VALUES);
        for (uint32_t e = 0; e < VALUES; e++) {
            unsigned n = second_distance(second_grid((uint16_t)d), second_grid((uint16_t)e));
            if (e != d && n < nearest)
                nearest = n;
        }
    }
    compare(&t, grid_radius(), 7, 0);
    compare(&t, grid_length(), 64, 1);
    compare(&t, grid_distance(), nearest, 2);
    report(&t);
}

static void all(void)
{
    every_grid();
    refused_numbers();
    plain_version();
    worked_numbers();
    rows();
    constants();
}

int main(int n, char **words)
{
    return run_tests(n, words, every_grid, all);
}
