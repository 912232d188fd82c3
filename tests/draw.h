/* What looks random, and is the same each time for the same seed. */
#pragma once
#include "report.h"

int snprintf(char *, unsigned long, const char *, ...);
unsigned long long strtoull(const char *, char **, int);

static uint64_t seed = 1, drawn;

/* Reads `SEED` behind a program's name, if it is there. */
static inline void read_seed(int n, char **words)
{
    if (n == 2)
        seed = strtoull(words[1], 0, 10);
}

/* a word that looks random, from a counter */
static inline uint64_t word(uint64_t k)
{
    k = (k + 1) * 0x9E3779B97F4A7C15;
    k = (k ^ k >> 30) * 0xBF58476D1CE4E5B9;
    k = (k ^ k >> 27) * 0x94D049BB133111EB;
    return k ^ k >> 31;
}

/* the next word that the seed gives */
static inline uint64_t draw(void)
{
    return word(word(seed) + drawn++);
}

/* a number that can be written, 0 to 65,534: in place of 65,535 it is 0 */
static inline uint16_t draw_number(void)
{
    uint16_t number = (uint16_t)draw();
    return number == 65535 ? 0 : number;
}

/* some of the places of a word that are 1: n of them, or all if there are not so many */
static inline uint64_t draw_places(uint64_t places, uint64_t n)
{
    uint64_t chosen = 0;
    while (n > 0 && chosen != places) {
        uint64_t place = (uint64_t)1 << draw() % 64 & places & ~chosen;
        chosen |= place;
        n -= place != 0;
    }
    return chosen;
}

/* brings n drawn ones of some places to the front; the places change their order */
static inline void draw_front(unsigned *places, unsigned count, unsigned n)
{
    for (unsigned k = 0; k < n; k++) {
        unsigned other = k + draw() % (count - k), place = places[other];
        places[other] = places[k];
        places[k] = place;
    }
}

/* a report that names the seed */
static inline void report_drawn(struct test t)
{
    char name[100];
    snprintf(name, sizeof name, "%s, seed %llu", t.name, (unsigned long long)seed);
    t.name = name;
    report(&t);
}
