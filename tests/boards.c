/* Boards of two rings over the C boundary, on tables made for it, with the answers that the rules give by hand.
 *
 * Exits with 0 only if verdict, values, sets and plan answered each board as it should be, calls that take one ring alone gave 2, and a
 * refusal left lent memory as it was. */
#include "ringplan.h"

#include <stdio.h>
#include <string.h>

enum { MOST_ROWS = 64, CLOCKWISE = 0, COUNTERCLOCKWISE = 1, MARK = 0xa5 };

struct row {
    unsigned cost, period, first, second, way;
};

/* A board, its verdict, and of one that is admitted its cuts and how many sets it has, and how many of them are of the first ring. */
struct shown {
    const char *what;
    unsigned elements, rows;
    struct row row[MOST_ROWS];
    unsigned number, place, cut, second, sets, of_first;
};

static const struct shown list[] = {
    {"a row each way between the same elements", 4, 2, {{4, 4, 1, 3, 0}, {4, 4, 1, 3, 1}}, 0, 0, 1, 3, 2, 1},
    {"the same route both ways", 4, 2, {{4, 4, 1, 3, 0}, {4, 4, 3, 1, 1}}, 0, 0, 1, 4, 2, 1},
    {"the first ring idle", 4, 1, {{1, 4, 3, 1, 1}}, 0, 0, 1, 4, 1, 0},
    {"the second ring idle", 4, 1, {{1, 4, 3, 1, 0}}, 0, 0, 1, 1, 1, 1},
    {"the first ring cut past 1", 4, 2, {{1, 4, 4, 2, 0}, {1, 4, 2, 1, 1}}, 0, 0, 2, 4, 2, 1},
    {"the second ring cut below M", 4, 2, {{1, 4, 1, 2, 0}, {1, 4, 1, 3, 1}}, 0, 0, 1, 3, 2, 1},
    {"the second ring cut at 1, as rows go through all else", 3, 2, {{1, 4, 1, 2, 1}, {1, 4, 3, 1, 1}}, 0, 0, 1, 1, 1, 0},
    {"two elements", 2, 4, {{1, 4, 1, 2, 0}, {1, 4, 2, 1, 0}, {1, 4, 1, 2, 1}, {1, 4, 2, 1, 1}}, 0, 0, 1, 2, 4, 2},
    {"sets of the second ring by falling second end", 4, 3, {{1, 4, 2, 1, 1}, {1, 4, 4, 3, 1}, {1, 4, 3, 2, 1}}, 0, 0, 1, 4, 3, 0},
    {"half on each ring in equal periods", 3, 4, {{2, 4, 1, 2, 0}, {2, 4, 1, 3, 0}, {2, 4, 2, 1, 1}, {2, 4, 3, 1, 1}}, 0, 0, 1, 3, 2, 1},
    {"no element clear clockwise", 3, 3, {{1, 4, 1, 3, 0}, {1, 4, 2, 1, 0}, {1, 4, 3, 2, 0}}, RING_NO_CUT, 0, 0, 0, 0, 0},
    {"no element clear counterclockwise", 3, 3, {{1, 4, 3, 1, 1}, {1, 4, 2, 3, 1}, {1, 4, 1, 2, 1}}, RING_NO_CUT, 1, 0, 0, 0, 0},
    {"on neither ring", 3, 6, {{1, 4, 3, 1, 1}, {1, 4, 2, 3, 1}, {1, 4, 1, 2, 1}, {1, 4, 1, 3, 0}, {1, 4, 2, 1, 0}, {1, 4, 3, 2, 0}},
        RING_NO_CUT, 0, 0, 0, 0, 0},
    {"no element clear on both together, but on each", 3, 3, {{1, 4, 1, 3, 0}, {1, 4, 2, 1, 0}, {1, 4, 2, 3, 1}}, 0, 0, 1, 3, 2, 1},
    {"direction 2", 4, 1, {{1, 4, 1, 2, 2}}, RING_WRONG_WAY, 0, 0, 0, 0, 0},
    {"direction 255 of the last row", 4, 3, {{1, 4, 1, 2, 0}, {1, 4, 1, 2, 1}, {1, 4, 3, 4, 255}}, RING_WRONG_WAY, 2, 0, 0, 0, 0},
    {"9 before 26 within the row", 4, 1, {{5, 4, 1, 2, 2}}, RING_WRONG_COST, 0, 0, 0, 0, 0},
    {"26 of row 0 before 7 of row 1", 4, 2, {{1, 4, 1, 2, 2}, {1, 4, 1, 1, 0}}, RING_WRONG_WAY, 0, 0, 0, 0, 0},
    {"26 before 18", 4, 3, {{1, 4, 1, 2, 0}, {1, 4, 1, 2, 0}, {1, 4, 1, 2, 2}}, RING_WRONG_WAY, 2, 0, 0, 0, 0},
    {"a row pasted on the same ring", 4, 3, {{1, 4, 1, 2, 1}, {1, 4, 1, 2, 0}, {2, 4, 1, 2, 1}}, RING_PASTED_ROW, 2, 0, 0, 0, 0},
    {"18 before 10", 3, 4, {{1, 4, 3, 1, 1}, {1, 4, 2, 3, 1}, {1, 4, 1, 2, 1}, {2, 4, 1, 2, 1}}, RING_PASTED_ROW, 3, 0, 0, 0, 0},
    {"10 before 11", 3, 4, {{1, 4, 3, 1, 1}, {1, 4, 2, 3, 1}, {1, 4, 1, 2, 1}, {1, 4095, 1, 2, 0}}, RING_NO_CUT, 1, 0, 0, 0, 0},
    {"h is over the rows of both rings", 4, 2, {{1, 4096, 1, 2, 0}, {1, 4095, 2, 1, 1}}, RING_LONG_HYPERPERIOD, 0, 0, 0, 0, 0},
    {"so is L, and whether all periods are equal", 4, 2, {{1, 4, 1, 2, 0}, {1, 8, 2, 1, 1}}, RING_LIGHT_ROW, 1, 0, 0, 0, 0},
    {"so is the bound: a full ring beside another period", 4, 2, {{4, 4, 1, 2, 0}, {2, 8, 2, 1, 1}}, RING_OVER_BOUND, 0, 0, 0, 0, 0},
    {"14 of the second ring, numbered through", 4, 3, {{1, 4, 1, 2, 0}, {3, 4, 2, 1, 1}, {2, 4, 3, 1, 1}}, RING_OVER_BOUND, 1, 0, 0, 0, 0},
    {"14 of the first ring comes first", 4, 4, {{3, 4, 2, 1, 1}, {2, 4, 3, 1, 1}, {3, 4, 1, 2, 0}, {2, 4, 1, 3, 0}}, RING_OVER_BOUND, 0, 0,
        0, 0, 0},
};

/* As many sets as there can be: a row on each segment of each ring. */
static struct shown sixty_four(void) {
    struct shown s = {"64 sets", 32, MOST_ROWS, {{0}}, 0, 0, 1, 32, 64, 32};
    for (unsigned i = 0; i < MOST_ROWS; i++) {
        unsigned e = 1 + i / 2, next = e % 32 + 1;
        s.row[i] = i % 2 ? (struct row){1, 4, next, e, COUNTERCLOCKWISE} : (struct row){1, 4, e, next, CLOCKWISE};
    }
    return s;
}

static uint8_t *put16(uint8_t *at, unsigned x) {
    *at++ = (uint8_t)(x % 256);
    *at++ = (uint8_t)(x / 256);
    return at;
}

static size_t encode(const struct shown *s, uint8_t *file) {
    uint8_t *at = file + 5;
    memcpy(file, "RB2\1\0", 5);
    *at++ = (uint8_t)s->elements;
    *at++ = (uint8_t)s->rows;
    for (unsigned i = 0; i < s->rows; i++) {
        const struct row *r = &s->row[i];
        at = put16(put16(at, r->cost), r->period);
        *at++ = (uint8_t)r->first;
        *at++ = (uint8_t)r->second;
        *at++ = (uint8_t)r->way;
    }
    return (size_t)(at - file);
}

static int bad;

static void say(const char *board, const char *what) {
    printf("boards: %s: %s\n", board, what);
    bad = 1;
}

static uint64_t plan[RING_PLAN_SLOTS], untouched[RING_PLAN_SLOTS], sets[RING_MOST_SETS];

/* Values and sets of an admitted board, and that no word of its plan has two rows of one set. */
static void show_found(const struct shown *s, const uint8_t *file, size_t bytes) {
    uint32_t values[RING_VALUES];
    if (ring_values(file, bytes, values, RING_VALUES) || ring_sets(file, bytes, sets, RING_MOST_SETS)) say(s->what, "no values or sets");
    if (values[RING_CUT] != s->cut || values[RING_SECOND_CUT] != s->second) say(s->what, "other cuts");
    if (values[RING_SETS] != s->sets) say(s->what, "another number of sets");
    for (unsigned k = 0; k < s->sets; k++)
        for (unsigned i = 0; i < s->rows; i++)
            if ((sets[k] >> i & 1) && s->row[i].way != (k >= s->of_first)) say(s->what, "a set is not where it should be in the list");
    for (unsigned slot = 0; slot < values[RING_HYPERPERIOD]; slot++)
        for (unsigned k = 0; k < s->sets; k++)
            if (__builtin_popcountll(plan[slot] & sets[k]) > 1) say(s->what, "rows that overlap stand in one slot");
}

static void show(const struct shown *s) {
    uint8_t file[RING_FILE_BYTES], out[RING_FILE_BYTES] = {0};
    size_t bytes = encode(s, file);
    uint32_t wanted = 256 * s->number + s->place;
    memset(plan, MARK, sizeof plan);
    if (ring_verdict(file, bytes) != wanted) say(s->what, "another verdict");
    if (ring_plan(file, bytes, plan, RING_PLAN_SLOTS) != wanted) say(s->what, "verdict and plan differ");
    if (wanted && memcmp(plan, untouched, sizeof plan)) say(s->what, "a refusal changed lent memory");
    if (!wanted) show_found(s, file, bytes);
    memset(plan, MARK, sizeof plan);
    if (ring_verdict_limited(file, bytes, 1000, 1000) != 256 * RING_WRONG_MARK
        || ring_plan_limited(file, bytes, 1000, 1000, plan, RING_PLAN_SLOTS) != 256 * RING_WRONG_MARK
        || ring_raise(file, bytes, out, sizeof out) != 256 * RING_WRONG_MARK
        || ring_element_list(file, bytes, plan, 0, 1, out, sizeof out) != (uint64_t)RING_WRONG_MARK << 32)
        say(s->what, "a call that takes one ring alone does not give 2");
    if (ring_verdict_limited(file, bytes, 1000, 1001) != 256 * RING_WRONG_LIMIT) say(s->what, "23 does not come before 2");
    if (ring_verdict_limited(file, 6, 1000, 1000) != 256 * RING_SHORT_FILE) say(s->what, "1 does not come before 2");
    if (memcmp(plan, untouched, sizeof plan) || out[0]) say(s->what, "a refusal with 2 changed lent memory");
}

/* The headers that differ from a board's by one number, and lengths: what the verdict then gives. */
static void show_headers(const struct shown *s) {
    uint8_t file[RING_FILE_BYTES];
    size_t bytes = encode(s, file);
    if (ring_verdict(file, bytes - 1) != 256 * RING_WRONG_LENGTH || ring_verdict(file, bytes + 1) != 256 * RING_WRONG_LENGTH
        || ring_verdict(file, 7 + 6 * s->rows) != 256 * RING_WRONG_LENGTH)
        say(s->what, "a length that is not 7 + 7 x rows is not refused with 6");
    for (unsigned version = 0; version < 65536; version++) {
        put16(file + 3, version);
        if (version != 1 && ring_verdict(file, bytes) != 256 * RING_WRONG_VERSION) say(s->what, "a version is not refused with 3");
    }
    put16(file + 3, 1);
    for (unsigned mark = 0; mark < 256; mark++) {
        file[2] = (uint8_t)mark;
        unsigned number = RING_NUMBER(ring_verdict(file, bytes));
        unsigned wanted = mark == '2' ? RING_DONE : mark == 'T' ? RING_WRONG_LENGTH : RING_WRONG_MARK;
        if (number != wanted) say(s->what, "the third byte of the mark is taken wrongly");
    }
}

int main(void) {
    const struct shown most = sixty_four();
    size_t boards = sizeof list / sizeof *list;
    memset(untouched, MARK, sizeof untouched);
    for (size_t k = 0; k < boards; k++) show(&list[k]);
    show(&most);
    show_headers(&list[0]);
    show_headers(&most);
    printf("%zu boards of two rings\n", boards + 1);
    return bad;
}
