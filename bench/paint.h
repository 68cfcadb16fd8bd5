// How many bytes of stack a call takes.
//
// A call runs on a stack of its own that was painted with one byte beforehand; the lowest byte that is no longer the paint says
// how far down it wrote. It runs twice, on two paints, and the deeper reading counts: a byte that is the one paint is not the
// other. A call's number is what a C function takes for it below its own return address: the arguments that go by the stack,
// as gcc aligns them, the call's return address, and all below.
//
// Compiled with -fno-optimize-sibling-calls, so that each call is one, and linked with -z now, so that no function is looked up
// on the painted stack.
#include <errno.h>
#include <stdint.h>
#include <stdio.h>
#include <stdlib.h>
#include <string.h>
#include <ucontext.h>

enum { SPACE = 1 << 18, PAINTS = 2, STEP = 8, KNOWN = 10000, SLACK = 64 };

static const uint8_t paints[PAINTS] = {0x5a, 0xa5};

// What a call is lent and given, of which each program has its own, and a C function that makes the call.
struct lent;
typedef uint64_t call(struct lent *l);

static void fail(const char *name, const char *what)
{
    fprintf(stderr, "%s: %s: %s\n", program_invocation_short_name, name, what);
    exit(1);
}

static size_t larger(size_t a, size_t b)
{
    return a < b ? b : a;
}

// The stack that calls run on, the way back from it, what runs there on what, and what it answers.
static uint8_t space[SPACE] __attribute__((aligned(64)));
static ucontext_t back;
static call *running;
static struct lent *lent_to_it;
static volatile uint64_t answer;

static void run_it(void)
{
    answer = running(lent_to_it);
}

// How far down a call writes, from the stack's upper end and by one paint. One that reaches the lower half could have gone past
// the end unseen.
static size_t reading(call *run, struct lent *l, uint8_t paint)
{
    ucontext_t own;
    running = run;
    lent_to_it = l;
    memset(space, paint, SPACE);
    getcontext(&own);
    own.uc_stack.ss_sp = space;
    own.uc_stack.ss_size = SPACE;
    own.uc_link = &back;
    makecontext(&own, run_it, 0);
    swapcontext(&back, &own);
    size_t low = 0;
    while (low < SPACE && space[low] == paint)
        low++;
    if (low < SPACE / 2)
        fail("a call", "it needs a larger stack");
    return SPACE - low / STEP * STEP;
}

// A call of nothing, whose reach is the harness's own, and one of a row.
static uint64_t nothing(struct lent *l)
{
    return l != NULL;
}

static uint64_t known(struct lent *l)
{
    volatile uint8_t row[KNOWN];
    for (size_t i = 0; i < KNOWN; i++)
        row[i] = l != NULL;
    return row[0];
}

// How far down a call of nothing writes, which a call's number leaves out. Fails where the number of a known row is not right.
static size_t own_reach(void)
{
    size_t none = 0, row = 0;
    for (size_t i = 0; i < PAINTS; i++) {
        none = larger(none, reading(nothing, NULL, paints[i]));
        row = larger(row, reading(known, NULL, paints[i]));
    }
    if (row < none + KNOWN || row > none + KNOWN + SLACK)
        fail("a known row", "it is not measured right");
    return none;
}
