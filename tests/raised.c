/* Light rows raised over the C boundary, on tables made for it, with the costs and the answers that the rules give by hand.
 *
 * Exits with 0 only if each table was answered and written as it should be in both versions of the file, with labels that are kept in
 * version 2, the raised table's verdict is the one that is named, and nothing was written to memory that is not the answer's. */
#include "ringplan.h"

#include <stdio.h>
#include <string.h>

enum { MOST_ROWS = 64, MARK = 0xa5 };

struct row {
    unsigned cost, period, first, second;
};

struct table {
    unsigned elements, rows;
    struct row row[MOST_ROWS];
};

/* A table; what raising it answers; the rows' costs then, where it answers 0; and the raised table's verdict. */
struct shown {
    const char *what;
    struct table table;
    uint32_t answer;
    unsigned cost[MOST_ROWS];
    uint32_t verdict;
};

#define REFUSED(number, place) (256 * (number) + (place))

static const struct shown list[] = {
    {"no light row", {3, 2, {{1, 4, 1, 2}, {2, 8, 1, 3}}}, 0, {1, 2}, 0},
    {"an exact multiple of L", {3, 2, {{1, 4, 1, 2}, {1, 8, 1, 3}}}, 0, {1, 2}, 0},
    {"a slot more than a multiple of L", {4, 3, {{3, 6, 1, 2}, {5, 10, 2, 3}, {7, 15, 3, 4}}}, 0, {3, 5, 8}, REFUSED(RING_OVER_BOUND, 2)},
    {"half an interval more", {4, 3, {{3, 12, 1, 2}, {5, 20, 2, 3}, {7, 30, 3, 4}}}, 0, {3, 5, 8}, 0},
    {"L is not the greatest common divisor of all periods", {4, 3, {{1, 12, 1, 2}, {1, 20, 2, 3}, {1, 30, 3, 4}}}, 0, {3, 5, 8}, 0},
    {"L is not the shortest period", {4, 2, {{1, 12, 1, 2}, {1, 20, 2, 3}}}, 0, {3, 5}, 0},
    {"no other row is raised", {4, 3, {{2, 4, 1, 2}, {1, 8, 2, 3}, {3, 8, 3, 4}}}, 0, {2, 2, 3}, 0},
    {"the last row alone", {4, 3, {{1, 4, 1, 2}, {2, 8, 2, 3}, {3, 16, 3, 4}}}, 0, {1, 2, 4}, 0},
    {"no row is light where all periods are equal", {4, 2, {{1, 4096, 1, 2}, {1, 4096, 2, 3}}}, 0, {1, 1}, 0},
    {"nor in a table of one row", {2, 1, {{1, 4096, 1, 2}}}, 0, {1}, 0},
    {"a cost as high as its period stays", {4, 2, {{4, 4, 1, 2}, {1, 8, 3, 4}}}, 0, {4, 2}, REFUSED(RING_OVER_BOUND, 0)},
    {"L 1: the cost of every row becomes its period", {4, 2, {{1, 3, 1, 2}, {1, 4, 3, 4}}}, 0, {3, 4}, REFUSED(RING_OVER_BOUND, 0)},
    {"a cost of two bytes", {4, 2, {{1, 8, 1, 2}, {511, 4096, 3, 4}}}, 0, {1, 512}, 0},
    {"a cost of 4,096, the highest there is", {4, 2, {{1, 1, 1, 2}, {255, 4096, 3, 4}}}, 0, {1, 4096}, REFUSED(RING_OVER_BOUND, 0)},
    {"a light row, and then 14", {3, 3, {{2, 4, 1, 2}, {1, 8, 1, 3}, {1, 4, 1, 3}}}, 0, {2, 2, 1}, REFUSED(RING_OVER_BOUND, 0)},
    {"a light row in one set, and then 14 in another", {5, 3, {{1, 4, 1, 2}, {1, 8, 2, 3}, {4, 4, 3, 4}}}, 0, {1, 2, 4},
        REFUSED(RING_OVER_BOUND, 2)},
    {"14 already, and no light row", {3, 2, {{2, 4, 1, 2}, {4, 8, 1, 3}}}, 0, {2, 4}, REFUSED(RING_OVER_BOUND, 0)},
    {"4 before 13", {33, 2, {{1, 4, 1, 2}, {1, 8, 1, 3}}}, REFUSED(RING_WRONG_ELEMENTS, 0), {0}, 0},
    {"7 before 13", {3, 3, {{1, 4, 1, 2}, {1, 8, 1, 3}, {1, 8, 2, 2}}}, REFUSED(RING_WRONG_ENDS, 2), {0}, 0},
    {"8 before 13", {3, 3, {{1, 4, 1, 2}, {1, 8, 1, 3}, {1, 4097, 2, 3}}}, REFUSED(RING_WRONG_PERIOD, 2), {0}, 0},
    {"9 before 13: a cost of 0 is not light", {3, 2, {{1, 4, 1, 2}, {0, 8, 1, 3}}}, REFUSED(RING_WRONG_COST, 1), {0}, 0},
    {"18 before 13", {3, 3, {{1, 4, 1, 2}, {1, 8, 1, 3}, {1, 8, 1, 3}}}, REFUSED(RING_PASTED_ROW, 2), {0}, 0},
    {"10 before 13", {3, 3, {{1, 4, 1, 3}, {1, 8, 2, 1}, {1, 8, 3, 2}}}, REFUSED(RING_NO_CUT, 0), {0}, 0},
    {"11 before 13", {4, 2, {{1, 4096, 1, 2}, {1, 4095, 3, 4}}}, REFUSED(RING_LONG_HYPERPERIOD, 0), {0}, 0},
};

/* As many rows as a table may have, up to three on a segment, with periods 24, 48 and 72 and all of cost 1: of 48 the least is 2, of 72 it
 * is 3. */
static struct shown sixty_four(void) {
    struct shown s = {.what = "64 rows", .table = {.elements = 32, .rows = MOST_ROWS}};
    for (unsigned i = 0; i < MOST_ROWS; i++) {
        unsigned times = 1 + i / 31;
        s.table.row[i] = (struct row){1, 24 * times, 1 + i % 31, 2 + i % 31};
        s.cost[i] = times;
    }
    return s;
}

static void put16(uint8_t *at, unsigned x) {
    at[0] = (uint8_t)(x % 256);
    at[1] = (uint8_t)(x / 256);
}

/* The table's file, of either version; a row's label is any number that is another for each row, in both bytes. */
static size_t encode(const struct table *t, unsigned version, uint8_t *file) {
    size_t size = version == 2 ? 8 : 6;
    memcpy(file, version == 2 ? "RBT\2\0" : "RBT\1\0", 5);
    file[5] = (uint8_t)t->elements;
    file[6] = (uint8_t)t->rows;
    for (unsigned i = 0; i < t->rows; i++) {
        uint8_t *r = file + 7 + size * i;
        put16(r, t->row[i].cost);
        put16(r + 2, t->row[i].period);
        r[4] = (uint8_t)t->row[i].first;
        r[5] = (uint8_t)t->row[i].second;
        if (size == 8) put16(r + 6, 65535 - 259 * i);
    }
    return 7 + size * t->rows;
}

static int bad;

static void say(const struct shown *s, unsigned version, const char *what) {
    printf("raised: %s, version %u: %s\n", s->what, version, what);
    bad = 1;
}

/* Raises the table with some room and holds what was written, and what was not, to what is wanted. */
static void raise(const struct shown *s, unsigned version, size_t room, uint32_t answer) {
    uint8_t file[RING_FILE_BYTES], wanted[RING_FILE_BYTES + 1], out[RING_FILE_BYTES + 1];
    size_t bytes = encode(&s->table, version, file);
    memset(wanted, MARK, sizeof wanted);
    memset(out, MARK, sizeof out);
    if (!answer) {
        struct table t = s->table;
        for (unsigned i = 0; i < t.rows; i++) t.row[i].cost = s->cost[i];
        encode(&t, version, wanted);
    }
    uint32_t given = ring_raise(file, bytes, out, room);
    if (given != answer) say(s, version, "another answer");
    if (memcmp(out, wanted, sizeof out)) say(s, version, answer ? "a refusal wrote something" : "another file");
    if (!answer && ring_verdict(out, bytes) != s->verdict) say(s, version, "another verdict of the raised table");
    if (!answer && ring_raise(wanted, bytes, out, room)) say(s, version, "the raised table can't be raised again");
    if (memcmp(out, wanted, sizeof out)) say(s, version, "raised again, the table changes");
}

static void show(const struct shown *s) {
    for (unsigned version = 1; version <= 2; version++) {
        size_t bytes = 7 + (version == 2 ? 8 : 6) * s->table.rows;
        uint32_t brief = s->answer ? s->answer : REFUSED(RING_SHORT_OUTPUT, 0);
        raise(s, version, bytes, s->answer);
        raise(s, version, RING_FILE_BYTES, s->answer);
        raise(s, version, bytes - 1, brief);
        raise(s, version, 0, brief);
    }
}

int main(void) {
    const struct shown most = sixty_four();
    size_t tables = sizeof list / sizeof *list;
    for (size_t k = 0; k < tables; k++) show(&list[k]);
    show(&most);
    printf("%zu tables with light rows and without\n", tables + 1);
    return bad;
}
