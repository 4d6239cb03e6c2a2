/* Relays over the C boundary, on tables made for it, with the answer and, where it is short, the plan that the rules give by hand.
 *
 * Exits with 0 only if verdict and plan with a relay answered each as it should be, and a refusal left the lent plan as it was. */
#include "ringplan.h"

#include <stdio.h>
#include <string.h>

enum { MOST_ROWS = 4, MOST_WORDS = 4, MARK = 0xa5 };

struct row {
    unsigned cost, period, first, second;
};

/* `slots` is 0 where the words are not told */
struct shown {
    const char *what;
    unsigned elements, rows;
    struct row row[MOST_ROWS];
    uint32_t relay;
    unsigned number, place, slots;
    uint64_t word[MOST_WORDS];
};

/* every element has some row through it: each is a relay, and then the cut */
#define ROUND 3, 3, {{1, 4, 1, 3}, {1, 4, 2, 1}, {1, 4, 3, 2}}

static const struct shown list[] = {
    {"no cut, relay 1", ROUND, 1, 0, 0, 4, {5, 10, 0, 0}},
    {"no cut, relay 2", ROUND, 2, 0, 0, 4, {10, 5, 0, 0}},
    {"no cut, relay 3", ROUND, 3, 0, 0, 4, {5, 10, 0, 0}},
    {"no cut, relay 0", ROUND, 0, RING_WRONG_RELAY, 0, 0, {0}},
    {"no cut, relay M + 1", ROUND, 4, RING_WRONG_RELAY, 0, 0, {0}},
    {"no cut, relay 2^32 - 1", ROUND, UINT32_MAX, RING_WRONG_RELAY, 0, 0, {0}},
    {"no cut, relay 2^32 - 4, which is M - 4 in 32 bits", ROUND, UINT32_MAX - 3, RING_WRONG_RELAY, 0, 0, {0}},
    {"a relay that is an end of every row", 3, 2, {{1, 4, 1, 2}, {2, 4, 2, 3}}, 2, 0, 0, 4, {3, 2, 0, 0}},
    {"a relay that no row comes near", 4, 2, {{1, 4, 1, 3}, {2, 4, 1, 2}}, 4, 0, 0, 4, {1, 2, 2, 0}},
    {"the relay holds two jobs of row 1", 3, 2, {{1, 2, 1, 2}, {1, 2, 3, 2}}, 1, 0, 0, 2, {3, 4}},
    {"equal rows after splitting", 3, 2, {{1, 4, 1, 3}, {1, 4, 1, 2}}, 2, 0, 0, 4, {3, 4, 0, 0}},
    {"a cut below the relay", 5, 3, {{1, 4, 4, 1}, {1, 4, 2, 4}, {1, 4, 5, 2}}, 3, 0, 0, 4, {7, 8, 0, 0}},
    {"18 reads the table as it is given", 3, 3, {{1, 4, 1, 3}, {1, 4, 2, 3}, {2, 4, 1, 3}}, 2, RING_PASTED_ROW, 2, 0, {0}},
    {"18 before 27", 3, 2, {{1, 4, 1, 3}, {1, 4, 1, 3}}, 0, RING_PASTED_ROW, 1, 0, {0}},
    {"9 before 27", 3, 1, {{0, 4, 1, 3}}, 0, RING_WRONG_COST, 0, 0, {0}},
    {"27 before 11", 4, 2, {{1, 4096, 1, 2}, {1, 4095, 3, 4}}, 5, RING_WRONG_RELAY, 0, 0, {0}},
    {"11", 4, 2, {{1, 4096, 1, 2}, {1, 4095, 3, 4}}, 4, RING_LONG_HYPERPERIOD, 0, 0, {0}},
    {"13 counts split rows", 4, 2, {{3, 4, 1, 3}, {1, 8, 3, 4}}, 2, RING_LIGHT_ROW, 2, 0, {0}},
    {"13 of a first half", 4, 2, {{1, 8, 1, 3}, {3, 4, 3, 4}}, 2, RING_LIGHT_ROW, 0, 0, {0}},
    {"14 counts sets of split rows", 4, 2, {{3, 4, 1, 3}, {2, 4, 2, 4}}, 2, RING_OVER_BOUND, 1, 0, {0}},
    {"14 of second halves that meet past the relay", 4, 2, {{3, 4, 1, 3}, {2, 4, 4, 3}}, 2, RING_OVER_BOUND, 0, 0, {0}},
};

static size_t encode(unsigned elements, const struct row *row, unsigned rows, uint8_t *file) {
    uint8_t *at = file + 7;
    memcpy(file, "RBT\1\0", 5);
    file[5] = (uint8_t)elements;
    file[6] = (uint8_t)rows;
    for (unsigned i = 0; i < rows; i++) {
        const struct row *r = &row[i];
        const uint8_t bytes[] = {(uint8_t)r->cost, (uint8_t)(r->cost >> 8), (uint8_t)r->period, (uint8_t)(r->period >> 8),
            (uint8_t)r->first, (uint8_t)r->second};
        memcpy(at, bytes, sizeof bytes);
        at += sizeof bytes;
    }
    return (size_t)(at - file);
}

static uint64_t plan[RING_PLAN_SLOTS], untouched[RING_PLAN_SLOTS];

/* Whether verdict and plan of a file are answered so. The plan is left in `plan`. */
static int answers(const char *what, const uint8_t *file, size_t bytes, uint32_t relay, uint32_t wanted) {
    uint32_t verdict = ring_verdict_relayed(file, bytes, relay);
    memset(plan, MARK, sizeof plan);
    uint32_t planned = ring_plan_relayed(file, bytes, relay, plan, RING_PLAN_SLOTS);
    int left = !wanted || !memcmp(plan, untouched, sizeof plan);
    if (verdict == wanted && planned == wanted && left) return 1;
    printf("relays: %s: verdict %u, %u, plan %u, %u; not %u, %u%s\n", what, RING_NUMBER(verdict), RING_PLACE(verdict),
        RING_NUMBER(planned), RING_PLACE(planned), RING_NUMBER(wanted), RING_PLACE(wanted), left ? "" : "; lent memory changed");
    return 0;
}

static int shown(const struct shown *s) {
    uint8_t file[RING_FILE_BYTES];
    size_t bytes = encode(s->elements, s->row, s->rows, file);
    if (!answers(s->what, file, bytes, s->relay, 256 * s->number + s->place)) return 0;
    if (!memcmp(plan, s->word, s->slots * sizeof *plan)) return 1;
    printf("relays: %s: the words are", s->what);
    for (unsigned k = 0; k < s->slots; k++) printf(" %llu", (unsigned long long)plan[k]);
    printf("\n");
    return 0;
}

/* Rows from each element to the next, and one through the relay 5 in the place of that from 4 to 5. */
static size_t many_rows(unsigned rows, uint8_t *file) {
    struct row row[64];
    for (unsigned i = 0; i < rows; i++) row[i] = (struct row){1 + i / 32, 64 * (1 + i / 32), i % 32 + 1, (i + 1) % 32 + 1};
    row[3].second = 6;
    return encode(32, row, rows, file);
}

/* 64 rows after splitting, and 65; and a relay with which the 64 given stay 64. */
static int limits(void) {
    uint8_t file[RING_FILE_BYTES];
    size_t bytes = many_rows(63, file);
    if (!answers("64 rows after splitting", file, bytes, 5, 0)) return 0;
    /* row 3 and its second half, next to it, each in one slot of 64 */
    if ((plan[0] & plan[64] & 0x18) != 0x18) {
        printf("relays: the halves of row 3 are not rows 3 and 4\n");
        return 0;
    }
    bytes = many_rows(64, file);
    return answers("65 rows after splitting", file, bytes, 5, 256 * RING_MANY_ROWS)
        && answers("27 before 28", file, bytes, 33, 256 * RING_WRONG_RELAY)
        && answers("64 rows, none through the relay", file, bytes, 4, 0);
}

/* Boards of two rings are not taken: 2 after 1, before all else. */
static int boards(void) {
    const uint8_t board[] = {'R', 'B', '2', 1, 0, 3, 1, 1, 0, 4, 0, 1, 3, 0};
    return answers("a board", board, sizeof board, 2, 256 * RING_WRONG_MARK)
        && answers("a board of version 9", (const uint8_t[]){'R', 'B', '2', 9, 0, 3, 1}, 7, 2, 256 * RING_WRONG_MARK)
        && answers("six bytes of a board", board, 6, 2, 256 * RING_SHORT_FILE);
}

int main(void) {
    int good = 1;
    memset(untouched, MARK, sizeof untouched);
    for (size_t k = 0; k < sizeof list / sizeof *list; k++) good &= shown(&list[k]);
    good &= limits() & boards();
    printf("%zu tables with relays\n", sizeof list / sizeof *list);
    return !good;
}
