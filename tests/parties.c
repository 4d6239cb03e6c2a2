/* Limits of two parties over the C boundary, on tables made for it, with the answer that the rules give by hand.
 *
 * Exits with 0 only if verdict and plan with limits answered each as it should be, and a refusal left the lent plan as it was. */
#include "ringplan.h"

#include <stdio.h>
#include <string.h>

enum { OURS = 32767, THEIRS = 32768, MOST_ROWS = 4, MARK = 0xa5 };

struct row {
    unsigned cost, period, first, second, label;
};

struct shown {
    const char *what;
    unsigned elements, rows;
    struct row row[MOST_ROWS];
    uint32_t ours, theirs;
    unsigned number, place;
};

static const struct shown list[] = {
    {"a third, a hair above the limit", 4, 1, {{1, 3, 1, 2, OURS}}, 333, 1000, RING_OUR_LIMIT, 1},
    {"a third, within the limit", 4, 1, {{1, 3, 1, 2, OURS}}, 334, 1000, 0, 0},
    {"their third, a hair above the limit", 4, 1, {{1, 3, 2, 3, THEIRS}}, 1000, 333, RING_THEIR_LIMIT, 2},
    {"their third, within the limit", 4, 1, {{1, 3, 2, 3, THEIRS}}, 1000, 334, 0, 0},
    {"exactly at the limit", 4, 1, {{1, 2, 3, 4, OURS}}, 500, 0, 0, 0},
    {"a thousandth under it", 4, 1, {{1, 2, 3, 4, OURS}}, 499, 0, RING_OUR_LIMIT, 3},
    {"limit 0 with a row", 4, 1, {{1, 4096, 1, 2, OURS}}, 0, 1000, RING_OUR_LIMIT, 1},
    {"all of a segment at 1,000", 4, 1, {{4, 4, 1, 2, OURS}}, 1000, 1000, 0, 0},
    {"all of a segment at 999", 4, 1, {{4, 4, 1, 2, OURS}}, 999, 1000, RING_OUR_LIMIT, 1},
    {"our limit 1,001", 4, 1, {{1, 3, 1, 2, OURS}}, 1001, 1000, RING_WRONG_LIMIT, 0},
    {"their limit 1,001", 4, 1, {{1, 3, 1, 2, OURS}}, 0, 1001, RING_WRONG_LIMIT, 0},
    {"our limit 2^32 - 1", 4, 1, {{1, 3, 1, 2, OURS}}, UINT32_MAX, 0, RING_WRONG_LIMIT, 0},
    {"their limit 2^32 - 1", 4, 1, {{1, 3, 1, 2, OURS}}, 1000, UINT32_MAX, RING_WRONG_LIMIT, 0},
    {"23 before 4", 33, 1, {{1, 3, 1, 2, OURS}}, 1001, 1000, RING_WRONG_LIMIT, 0},
    {"4 before 21", 33, 1, {{1, 3, 1, 2, OURS}}, 0, 0, RING_WRONG_ELEMENTS, 0},
    {"label 32,767 is ours", 4, 1, {{1, 3, 1, 2, 32767}}, 0, 1000, RING_OUR_LIMIT, 1},
    {"label 32,767 is not theirs, who have no rows and the limit 0", 4, 1, {{1, 3, 1, 2, 32767}}, 1000, 0, 0, 0},
    {"label 32,768 is theirs", 4, 1, {{1, 3, 1, 2, 32768}}, 1000, 0, RING_THEIR_LIMIT, 1},
    {"label 32,768 is not ours, who have no rows and the limit 0", 4, 1, {{1, 3, 1, 2, 32768}}, 0, 1000, 0, 0},
    {"21 on segment 3 hides 22 on segment 1", 4, 2, {{1, 3, 1, 2, THEIRS}, {1, 3, 3, 4, OURS}}, 333, 333, RING_OUR_LIMIT, 3},
    {"the same where ours are within", 4, 2, {{1, 3, 1, 2, THEIRS}, {1, 3, 3, 4, OURS}}, 334, 333, RING_THEIR_LIMIT, 1},
    {"the parties are not summed", 4, 2, {{1, 2, 1, 2, OURS}, {1, 2, 1, 3, THEIRS}}, 500, 500, 0, 0},
    {"thirds are not rounded up one by one", 4, 3, {{1, 3, 1, 2, OURS}, {1, 3, 1, 3, OURS}, {1, 3, 1, 4, OURS}}, 1000, 0, 0, 0},
    {"nor down", 4, 3, {{1, 3, 1, 2, OURS}, {1, 3, 1, 3, OURS}, {1, 3, 1, 4, OURS}}, 999, 0, RING_OUR_LIMIT, 1},
    {"13 without limits, 21 with 1,000", 3, 2, {{4, 4, 1, 2, OURS}, {1, 8, 1, 3, OURS}}, 1000, 1000, RING_OUR_LIMIT, 1},
    {"13 without limits, 22 with 1,000", 3, 2, {{4, 4, 1, 2, THEIRS}, {1, 8, 1, 3, THEIRS}}, 1000, 1000, RING_THEIR_LIMIT, 1},
    {"13 where each party is within", 3, 2, {{4, 4, 1, 2, OURS}, {1, 8, 1, 3, THEIRS}}, 1000, 1000, RING_LIGHT_ROW, 1},
    {"14 without limits, 21 with 1,000", 3, 2, {{4, 4, 1, 2, OURS}, {1, 4, 1, 3, OURS}}, 1000, 1000, RING_OUR_LIMIT, 1},
    {"14 where each party is within", 3, 2, {{4, 4, 1, 2, OURS}, {1, 4, 1, 3, THEIRS}}, 1000, 1000, RING_OVER_BOUND, 0},
    {"segment 32", 32, 1, {{1, 2, 32, 1, OURS}}, 499, 1000, RING_OUR_LIMIT, 32},
    {"their segment 32", 32, 2, {{1, 2, 1, 2, OURS}, {1, 2, 32, 1, THEIRS}}, 1000, 499, RING_THEIR_LIMIT, 32},
    {"the lowest of the segments of a route over the ring's end", 32, 1, {{1, 2, 31, 2, OURS}}, 499, 1000, RING_OUR_LIMIT, 1},
    {"a third, over a hyperperiod that the other party makes 3,072", 4, 2, {{2, 6, 1, 2, OURS}, {512, 3072, 3, 4, THEIRS}}, 333, 1000,
        RING_OUR_LIMIT, 1},
    {"the same within the limit", 4, 2, {{2, 6, 1, 2, OURS}, {512, 3072, 3, 4, THEIRS}}, 334, 1000, 0, 0},
    {"the same without the other party", 4, 1, {{2, 6, 1, 2, OURS}}, 333, 1000, RING_OUR_LIMIT, 1},
    {"11 before 21", 4, 2, {{1, 4096, 1, 2, OURS}, {1, 4095, 3, 4, THEIRS}}, 0, 0, RING_LONG_HYPERPERIOD, 0},
    {"10 before 21", 3, 3, {{1, 4, 1, 3, OURS}, {1, 4, 2, 1, THEIRS}, {1, 4, 3, 2, OURS}}, 0, 0, RING_NO_CUT, 0},
    {"18 before 21, though the rows are of two parties", 4, 2, {{1, 4, 1, 2, OURS}, {1, 4, 1, 2, THEIRS}}, 0, 0, RING_PASTED_ROW, 1},
};

static uint8_t *put16(uint8_t *at, unsigned x) {
    *at++ = (uint8_t)(x % 256);
    *at++ = (uint8_t)(x / 256);
    return at;
}

static size_t encode(const struct shown *s, uint8_t *file) {
    uint8_t *at = file + 5;
    memcpy(file, "RBT\2\0", 5);
    *at++ = (uint8_t)s->elements;
    *at++ = (uint8_t)s->rows;
    for (unsigned i = 0; i < s->rows; i++) {
        const struct row *r = &s->row[i];
        at = put16(put16(at, r->cost), r->period);
        *at++ = (uint8_t)r->first;
        *at++ = (uint8_t)r->second;
        at = put16(at, r->label);
    }
    return (size_t)(at - file);
}

int main(void) {
    static uint64_t plan[RING_PLAN_SLOTS], without[RING_PLAN_SLOTS], untouched[RING_PLAN_SLOTS];
    int bad = 0;
    memset(untouched, MARK, sizeof untouched);
    for (size_t k = 0; k < sizeof list / sizeof *list; k++) {
        const struct shown *s = &list[k];
        uint8_t file[RING_FILE_BYTES];
        size_t bytes = encode(s, file);
        uint32_t wanted = 256 * s->number + s->place, verdict = ring_verdict_limited(file, bytes, s->ours, s->theirs);
        memset(plan, MARK, sizeof plan);
        memset(without, MARK, sizeof without);
        uint32_t planned = ring_plan_limited(file, bytes, s->ours, s->theirs, plan, RING_PLAN_SLOTS);
        if (!wanted && ring_plan(file, bytes, without, RING_PLAN_SLOTS)) bad = 1;
        int words = memcmp(plan, wanted ? untouched : without, sizeof plan);
        if (verdict == wanted && planned == wanted && !words) continue;
        printf("parties: %s: verdict %u, %u, plan %u, %u; not %u, %u%s\n", s->what, RING_NUMBER(verdict), RING_PLACE(verdict),
            RING_NUMBER(planned), RING_PLACE(planned), s->number, s->place, words ? "; other words" : "");
        bad = 1;
    }
    printf("%zu tables with limits\n", sizeof list / sizeof *list);
    return bad;
}
