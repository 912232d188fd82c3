/* A call on stacks of its own, which are painted: the deepest byte that has changed tells how much of its stack a call has written. For
   x86-64. */
#pragma once
#include "report.h"

void *memcpy(void *, const void *, unsigned long);
void *memset(void *, int, unsigned long);

typedef void function(void);

/* A call has up to eight arguments, six of them in registers. The other two stand above TOP, where the caller leaves them; what is counted
   is below. */
enum { ARGUMENTS = 8, REGISTERS = 6, STACK = 65536, TOP = STACK - 16, ROOM = 33000 };

/* Two painted stacks, since a byte that is written can have the colour of one of them. Each call is made before on a stack that is not
   looked at: there a function of libc is bound in its first call, which takes stack of its own. */
enum { BINDING, PAINTED, STACKS = 3 };
static _Alignas(16) uint8_t stacks[STACKS][STACK];
static const uint8_t colours[STACKS] = {0x00, 0x5A, 0xC3};

/* what a call works on, and may alter */
static _Alignas(16) uint8_t room[ROOM];

/* the function that is called, and which bits of what it returns are compared */
static function *called;
static uint64_t compared_bits;

/* the call itself; and a function that writes one byte, of the colour of a stack, 1,000 bytes below its caller */
uint64_t call_on(uint8_t *top, function *called, const uint64_t arguments[REGISTERS]);
function known;
enum { KNOWN = 1000 };

__asm__(".text\n"
        "known:\n"
        "    movb $0x5A, -992(%rsp)\n"
        "    ret\n"
        "call_on:\n"
        "    push %rbp\n"
        "    mov %rsp, %rbp\n"
        "    mov %rdi, %rsp\n"
        "    mov %rsi, %rax\n"
        "    mov %rdx, %r10\n"
        "    mov (%r10), %rdi\n"
        "    mov 8(%r10), %rsi\n"
        "    mov 16(%r10), %rdx\n"
        "    mov 24(%r10), %rcx\n"
        "    mov 32(%r10), %r8\n"
        "    mov 40(%r10), %r9\n"
        "    call *%rax\n"
        "    mov %rbp, %rsp\n"
        "    pop %rbp\n"
        "    ret\n");

static inline uint64_t address(const void *place)
{
    return (uint64_t)place;
}

static inline void paint(void)
{
    for (unsigned s = 0; s < STACKS; s++)
        memset(stacks[s], colours[s], STACK);
}

/* One call on each of the stacks, with these bytes at the front of the room. What it has to return is known. */
static inline void make_call(struct test *t, const void *bytes, uint64_t n, const uint64_t arguments[ARGUMENTS], uint64_t expected)
{
    for (unsigned s = 0; s < STACKS; s++) {
        memcpy(room, bytes, n);
        memcpy(stacks[s] + TOP, arguments + REGISTERS, STACK - TOP);
        uint64_t returned = call_on(stacks[s] + TOP, called, arguments);
        compare(t, returned & compared_bits, expected, t->compared);
    }
}

/* how many bytes the calls so far have written to at most, from the return address down to the deepest */
static inline uint64_t depth(void)
{
    uint64_t most = 0;
    for (unsigned s = PAINTED; s < STACKS; s++) {
        uint64_t k = 0;
        while (k < TOP && stacks[s][k] == colours[s])
            k++;
        if (TOP - k > most)
            most = TOP - k;
    }
    return most;
}

/* whether the function that is known is measured right, by the stack of the other colour */
static inline int measures(void)
{
    const uint64_t none[ARGUMENTS] = {0};
    struct test t = {0};
    called = known;
    compared_bits = 0;
    paint();
    make_call(&t, room, 0, none, 0);
    return depth() == KNOWN;
}
