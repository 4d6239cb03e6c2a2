/* Measures the library against C with its own algorithms (words.c) and against the C that one would write first (plain.c), in one run.
 *
 *     bench            a table of times and ratios
 *     bench --check    only that all three give the same words on every table measured; no times
 *
 * Times are CPU time in microseconds a call, the best of several rounds. All plan into one buffer, which is not cleared between calls. */
#include "plain.h"
#include "ringplan.h"

#include <stdio.h>
#include <string.h>
#include <time.h>

#if defined __x86_64__
#include <cpuid.h>

/* The emulator gives its name where a hypervisor would. */
static int emulated(void) {
    unsigned a, b, c, d;
    char name[13] = {0};
    __cpuid(0x40000000, a, b, c, d);
    memcpy(name, &b, 4);
    memcpy(name + 4, &c, 4);
    memcpy(name + 8, &d, 4);
    return !strcmp(name, "TCGTCGTCGTCG");
}
#else
static int emulated(void) {
    return 0;
}
#endif

enum { ROUNDS = 15, TABLES = 12 };

static uint64_t state = 0x9e3779b97f4a7c15u;

static unsigned below(unsigned n) {
    state ^= state << 13;
    state ^= state >> 7;
    state ^= state << 17;
    return (unsigned)((state >> 11) % n);
}

struct file {
    uint8_t byte[RING_FILE_BYTES];
    size_t length;
};

/* Row i has the ends and the period of an earlier one. */
static int pasted(const struct file *f, unsigned i) {
    for (unsigned j = 0; j < i; j++)
        if (!memcmp(f->byte + 7 + 6 * i + 2, f->byte + 7 + 6 * j + 2, 4)) return 1;
    return 0;
}

/* A class of tables: periods are `base` times one of the factors, which all occur; L is `interval`, which any two periods have in common at
 * least, and the plan has `intervals` intervals. */
struct class {
    unsigned rows, base, interval, intervals, factors;
    unsigned factor[32];
};

/* A row of a table that `make` makes, with the least cost that is not light. */
static void draw(struct file *f, unsigned i, const struct class *c, unsigned elements, unsigned span) {
    uint8_t *r = f->byte + 7 + 6 * i;
    unsigned period = c->base * c->factor[i < c->factors ? i : below(c->factors)], cost = (period + c->interval - 1) / c->interval;
    unsigned first = 1 + (span == 1 ? i : below(elements)) % (elements - 1), second = first + 1 + below(span);
    if (second > elements) second = elements;
    r[0] = (uint8_t)(cost & 255);
    r[1] = (uint8_t)(cost >> 8);
    r[2] = (uint8_t)(period & 255);
    r[3] = (uint8_t)(period >> 8);
    r[4] = (uint8_t)first;
    r[5] = (uint8_t)second;
}

/* An admitted table of a class: costs are raised from the least that passes until the bus is well loaded. */
static int make(struct file *f, const struct class *c) {
    /* a row's load is at least 1 / L, so with a short interval few rows can share a segment: such tables have short routes, spread out */
    unsigned rows = c->rows, elements = rows < 16 ? 8 : 32, span = c->interval < 8 && rows > 16 ? 1 : rows < 16 ? 4 : 3;
    f->length = 7 + 6 * (size_t)rows;
    memcpy(f->byte, "RBT\1\0", 5);
    f->byte[5] = (uint8_t)elements;
    f->byte[6] = (uint8_t)rows;
    for (unsigned i = 0; i < rows; i++) {
        unsigned turn = 0;
        do draw(f, i, c, elements, span);
        while (pasted(f, i) && turn++ < 1000);
    }
    if (words_verdict(f->byte, f->length)) return 0;
    for (unsigned turn = 0; turn < 60 * rows; turn++) {
        uint8_t *r = f->byte + 7 + 6 * below(rows);
        uint8_t low = r[0], high = r[1];
        unsigned cost = low + 256u * high + 1 + below(1 + c->interval / 8);
        r[0] = (uint8_t)(cost & 255);
        r[1] = (uint8_t)(cost >> 8);
        if (words_verdict(f->byte, f->length)) r[0] = low, r[1] = high;
    }
    return 1;
}

static uint64_t words[RING_PLAN_SLOTS], others[RING_PLAN_SLOTS];

typedef uint32_t planner(const uint8_t *, size_t, uint64_t *, size_t);
typedef uint32_t judge(const uint8_t *, size_t);

static double plan_us(planner *plan, const struct file *f, unsigned calls) {
    clock_t from = clock();
    for (unsigned n = 0; n < calls; n++)
        for (unsigned t = 0; t < TABLES; t++) plan(f[t].byte, f[t].length, words, RING_PLAN_SLOTS);
    return 1e6 * (double)(clock() - from) / CLOCKS_PER_SEC / calls / TABLES;
}

static double verdict_us(judge *verdict, const struct file *f, unsigned calls) {
    volatile uint32_t sink = 0;
    clock_t from = clock();
    for (unsigned n = 0; n < calls; n++)
        for (unsigned t = 0; t < TABLES; t++) sink += verdict(f[t].byte, f[t].length);
    return 1e6 * (double)(clock() - from) / CLOCKS_PER_SEC / calls / TABLES;
}

/* the library, words.c, plain.c */
enum { MEASURED = 3 };
static planner *const planners[MEASURED] = {ring_plan, words_plan, plain_plan};
static judge *const judges[MEASURED] = {ring_verdict, words_verdict, plain_verdict};

/* The three take turns, so that what else the machine does falls on all of them. */
static void measure(const struct file *f, unsigned calls, double *plan, double *verdict) {
    for (unsigned m = 0; m < MEASURED; m++) plan[m] = verdict[m] = 1e9;
    for (unsigned round = 0; round < ROUNDS; round++)
        for (unsigned m = 0; m < MEASURED; m++) {
            double p = plan_us(planners[m], f, calls), v = verdict_us(judges[m], f, 8 * calls);
            if (p < plan[m]) plan[m] = p;
            if (v < verdict[m]) verdict[m] = v;
        }
}

/* Whether all three give the same words, for tables of the class that they are to be. */
static int same(const struct file *f, const struct class *c) {
    uint32_t value[RING_VALUES];
    words_intervals = 0;
    for (unsigned t = 0; t < TABLES; t++) {
        if (ring_plan(f[t].byte, f[t].length, words, RING_PLAN_SLOTS)) return 0;
        if (ring_values(f[t].byte, f[t].length, value, RING_VALUES) || value[RING_INTERVAL] != c->interval) return 0;
        for (unsigned m = 1; m < MEASURED; m++)
            if (judges[m](f[t].byte, f[t].length) || planners[m](f[t].byte, f[t].length, others, RING_PLAN_SLOTS) ||
                memcmp(words, others, value[RING_HYPERPERIOD] * sizeof *words))
                return 0;
    }
    return words_intervals == (unsigned long)TABLES * c->intervals;
}

/* Tables of one class. Returns 0 only where the three differ, or the class is another. */
static int run(const struct class *c, int check) {
    struct file f[TABLES];
    unsigned made = 0, tries = 0;
    while (made < TABLES && tries++ < 4000) made += (unsigned)make(&f[made], c);
    if (made < TABLES) {
        if (!check) printf("| %4u | %4u | %9u | too few such tables are admitted |\n", c->rows, c->interval, c->intervals);
        return 1;
    }
    if (!same(f, c)) {
        printf("bench: the three differ at %u rows, L %u, %u intervals\n", c->rows, c->interval, c->intervals);
        return 0;
    }
    if (check) return 1;
    double plan[MEASURED], verdict[MEASURED];
    words_intervals = words_settled = 0;
    measure(f, 1 + 400000 / (c->rows * c->intervals * 20 + c->interval * c->intervals), plan, verdict);
    printf("| %4u | %4u | %9u | %9.2f | %7.2f | %5.2f | %7.2f | %5.2f | %11.2f | %6.0f%% ", c->rows, c->interval, c->intervals, plan[0],
        plan[1], plan[0] / plan[1], plan[2], plan[0] / plan[2], plan[0] / c->intervals,
        100.0 * (double)words_settled / (double)words_intervals);
    printf("| %12.2f | %7.2f | %5.2f | %7.2f | %5.2f |\n", verdict[0], verdict[1], verdict[0] / verdict[1], verdict[2],
        verdict[0] / verdict[2]);
    fflush(stdout);
    return 1;
}

/* Periods that divide one another but for some: L times the divisors of `intervals`, the longest first. */
static struct class divisors(unsigned rows, unsigned interval, unsigned intervals) {
    struct class c = {.rows = rows, .base = interval, .interval = interval, .intervals = intervals};
    c.factor[c.factors++] = intervals;
    for (unsigned d = 1; d < intervals; d++)
        if (intervals % d == 0) c.factor[c.factors++] = d;
    return c;
}

/* Many short intervals: periods that have little in common, so that many slots are a multiple of only one. `rows` is the most that such
 * a table has here: with more, too many would share a segment. */
static const struct class uneven[] = {
    {.rows = 20, .base = 4, .interval = 4, .intervals = 4, .factors = 2, .factor = {2, 3}},
    {.rows = 20, .base = 4, .interval = 4, .intervals = 7, .factors = 2, .factor = {3, 5}},
    {.rows = 64, .base = 4, .interval = 4, .intervals = 57, .factors = 3, .factor = {3, 5, 7}},
    {.rows = 20, .base = 2, .interval = 4, .intervals = 8, .factors = 3, .factor = {6, 10, 15}},
    {.rows = 20, .base = 3, .interval = 3, .intervals = 675, .factors = 4, .factor = {3, 5, 7, 11}},
    {.rows = 64, .base = 39, .interval = 39, .intervals = 57, .factors = 3, .factor = {3, 5, 7}},
    {.rows = 20, .base = 4, .interval = 4, .intervals = 63, .factors = 2, .factor = {31, 33}},
};

int main(int argc, char **argv) {
    static const unsigned rows[] = {8, 20, 64}, interval[] = {4, 16, 100}, intervals[] = {8, 16, 32}, period[] = {64, 400, 3200};
    int check = argc > 1 && !strcmp(argv[1], "--check");
    if (argc > 1 && !check) {
        fprintf(stderr, "usage: bench [--check]\n");
        return 2;
    }
    if (!check && emulated()) {
        fprintf(stderr, "bench: a time under an emulator says nothing; bench/run builds for the processor at hand\n");
        return 2;
    }
    if (!check) {
        printf("| rows |    L | intervals | ring_plan | words.c | ratio | plain.c | ratio | an interval | settled ");
        printf("| ring_verdict | words.c | ratio | plain.c | ratio |\n");
        printf("|---|---|---|---|---|---|---|---|---|---|---|---|---|---|---|\n");
    }
    for (unsigned a = 0; a < 3; a++)
        for (unsigned b = 0; b < 3; b++)
            for (unsigned c = 0; c < 3; c++) {
                struct class of = divisors(rows[a], interval[b], intervals[c]);
                if (!run(&of, check)) return 1;
            }
    /* all periods equal: the plan is one interval */
    for (unsigned a = 0; a < 3; a++)
        for (unsigned b = 0; b < 3; b++) {
            struct class of = divisors(rows[a], period[b], 1);
            if (!run(&of, check)) return 1;
        }
    for (unsigned a = 0; a < 3; a++)
        for (unsigned b = 0; b < sizeof uneven / sizeof *uneven; b++) {
            struct class of = uneven[b];
            if (of.rows < rows[a]) continue;
            of.rows = rows[a];
            if (!run(&of, check)) return 1;
        }
    return 0;
}
