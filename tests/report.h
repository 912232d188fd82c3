/* How a test program reports: a line for each test, `ok NAME: N compared` or `FAILED NAME: ..`. A test that compared nothing has
   failed. */
#pragma once
#include <stdint.h>

int printf(const char *, ...);

struct test {
    const char *name;
    uint64_t compared, differ, at;
};

static inline void compare(struct test *t, uint64_t library, uint64_t second, uint64_t at)
{
    t->compared++;
    if (library != second && t->differ++ == 0)
        t->at = at;
}

static inline void report(const struct test *t)
{
    if (t->compared == 0)
        printf("FAILED %s: nothing was compared\n", t->name);
    else if (t->differ != 0)
        printf("FAILED %s: %llu of %llu differ, first at %llu\n", t->name, (unsigned long long)t->differ, (unsigned long long)t->compared,
               (unsigned long long)t->at);
    else
        printf("ok %s: %llu compared\n", t->name, (unsigned long long)t->compared);
}
