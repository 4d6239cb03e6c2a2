/* Compares the library over the C boundary with the oracle, and its words with those of the two plain C planners, on random tables: good,
 * at the bound, just past it and damaged; with limits of the two parties, and with other rows of one party; what it makes of their light
 * rows; with relays; and boards of two rings, mirrored, and with other rows on one of the rings.
 *
 *     compare TABLES SEED          all kinds of tables
 *     compare TABLES SEED routes   tables of many rows with long routes, well loaded: there the choice of loads is hardest
 *
 * Exits with 0 only if every answer agreed, every lent buffer was left as it should be, every plan kept its promises and (for all kinds of
 * tables) every refusal that the functions can give was seen. */
#include "oracle.h"
#include "plain.h"
#include "ringplan.h"

#include <stdio.h>
#include <stdlib.h>
#include <string.h>
#include <sys/mman.h>
#include <unistd.h>

enum { FILE_ROOM = 600, GUARD = 64, FEW_ROWS = 12, LAST_OF_OURS = 32767 };

static uint64_t state;

static unsigned below(unsigned n) {
    state ^= state << 13;
    state ^= state >> 7;
    state ^= state << 17;
    return (unsigned)((state >> 11) % n);
}

static unsigned between(unsigned low, unsigned high) {
    return low + below(high - low + 1);
}

/* ---- tables */

struct file {
    uint8_t byte[FILE_ROOM];
    size_t length;
};

static void put16(uint8_t *at, unsigned x) {
    at[0] = (uint8_t)(x & 255);
    at[1] = (uint8_t)(x >> 8);
}

/* A board of two rings is written so, with its directions; a table of version 2 with its labels; any other as version 1. */
static void encode(const struct table *t, struct file *f) {
    size_t size = t->rings == 2 ? 7 : t->version == 2 ? 8 : 6;
    memcpy(f->byte, size == 7 ? "RB2\1\0" : size == 8 ? "RBT\2\0" : "RBT\1\0", 5);
    f->byte[5] = (uint8_t)t->elements;
    f->byte[6] = (uint8_t)t->rows;
    for (unsigned i = 0; i < t->rows; i++) {
        uint8_t *r = f->byte + 7 + size * i;
        put16(r, t->row[i].cost);
        put16(r + 2, t->row[i].period);
        r[4] = (uint8_t)t->row[i].first;
        r[5] = (uint8_t)t->row[i].second;
        if (size == 7) r[6] = (uint8_t)t->row[i].way;
        if (size == 8) put16(r + 6, t->row[i].label);
    }
    f->length = 7 + size * t->rows;
}

static unsigned gcd(unsigned a, unsigned b) {
    while (a && b)
        if (a > b) a %= b;
        else b %= a;
    return a + b;
}

/* L, as the least greatest common divisor of any two periods: the oracle looks at every slot. */
static unsigned shortest(const struct table *t) {
    unsigned l = t->row[0].period;
    for (unsigned i = 0; i < t->rows; i++)
        for (unsigned j = 0; j < i; j++) {
            unsigned d = gcd(t->row[i].period, t->row[j].period);
            if (d < l) l = d;
        }
    return l;
}

/* The least cost that is not light, or now and then a smaller one, or more. */
static void give_costs(struct table *t) {
    unsigned l = shortest(t);
    for (unsigned i = 0; i < t->rows; i++) {
        struct row *r = &t->row[i];
        unsigned least = (r->period + l - 1) / l;
        r->cost = between(below(40) ? least : 1, below(t->rows) < 3 ? r->period : least);
        if (r->cost > r->period) r->cost = r->period;
    }
}

/* Few rows, whose periods are multiples of one number that have else little in common: two or three coprime ones times it, or each two of
 * three primes, as 6, 10 and 15. Many intervals are of different length then. */
static void uneven_table(struct table *t) {
    static const unsigned times[][4] = {{2, 3}, {3, 4}, {3, 5}, {7, 9}, {2, 3, 5}, {3, 5, 7}, {6, 10, 15}, {6, 10, 15, 30}, {6, 14, 21},
        {10, 14, 35}};
    const unsigned *time = times[below(sizeof times / sizeof *times)];
    memset(t, 0, sizeof *t);
    t->rings = 1;
    t->elements = between(3, 12);
    t->rows = between(2, 8);
    unsigned kinds = 2 + !!time[2] + !!time[3], base = between(1, below(4) ? 12 : 19);
    for (unsigned i = 0; i < t->rows; i++) {
        struct row *r = &t->row[i];
        r->period = base * time[i < kinds ? i : below(kinds)];
        r->first = between(1, t->elements - 1);
        r->second = r->first + 1;
    }
    give_costs(t);
}

/* Rows round a ring that leave one element clear more often than not; periods are a number times divisors of a small one. */
static void random_table(struct table *t) {
    static const unsigned small[] = {1, 2, 3, 4, 5, 6, 8, 10, 12, 30};
    memset(t, 0, sizeof *t);
    t->rings = 1;
    t->elements = between(2, below(3) ? 8 : MAX_ELEMENTS);
    t->rows = between(1, below(4) ? 10 : MAX_ROWS);
    unsigned cut = between(1, t->elements), any_route = below(12) == 0;
    unsigned most = small[below(sizeof small / sizeof *small)];
    unsigned interval = between(1, below(3) ? 24 : MAX_SLOTS / most);
    unsigned equal = below(4) == 0;
    unsigned span = t->rows > 16 ? between(1, 2) : between(1, t->elements);
    if (t->rows > 16 && below(4)) t->elements = MAX_ELEMENTS, cut = between(1, t->elements), interval = between(8, MAX_SLOTS / most);
    for (unsigned i = 0; i < t->rows; i++) {
        struct row *r = &t->row[i];
        unsigned divisor;
        do divisor = between(1, most);
        while (most % divisor);
        r->period = interval * (equal ? most : divisor);
        if (any_route) {
            r->first = between(1, t->elements);
            do r->second = between(1, t->elements);
            while (r->second == r->first);
        } else {
            /* on the line from the cut: places 0 to M, place M being the cut again */
            unsigned a = below(t->elements), length = between(1, span);
            unsigned b = a + length > t->elements ? t->elements : a + length;
            r->first = (cut - 1 + a) % t->elements + 1;
            r->second = (cut - 1 + b) % t->elements + 1;
            if (r->first == r->second) r->second = r->first % t->elements + 1;
        }
    }
    give_costs(t);
}

/* The row with its ends mirrored, running the other way: the same moves, seen from the other side of the board. */
static void turn(const struct table *t, struct row *r) {
    r->first = t->elements + 1 - r->first;
    r->second = t->elements + 1 - r->second;
    r->way = 1 - r->way;
}

/* The table on a board of two rings: some rows, or all, or none of them turned. On either ring rows keep clear of where it was cut. */
static void on_board(struct table *t) {
    unsigned turned = below(4) ? between(1, 7) : 8 * below(2);
    t->rings = 2;
    for (unsigned i = 0; i < t->rows; i++)
        if (below(8) < turned) turn(t, &t->row[i]);
}

/* Three rows of a board go all the way round its second ring, so that each of that ring's elements has a row through it. */
static void round_second(struct table *t) {
    if (t->elements < 3 || t->rows < 3) return;
    for (unsigned i = 0; i < 3; i++) {
        struct row *r = &t->row[i];
        r->first = i + 1;
        r->second = i ? i : t->elements;
        r->way = 0;
        turn(t, r);
    }
}

/* Gives some row a long odd period: with the others' it makes a hyperperiod that is too long, more often than not. */
static void lengthen(struct table *t) {
    t->row[below(t->rows)].period = between(MAX_SLOTS / 2, MAX_SLOTS - 1) | 1;
}

/* Row i has the ends, the period and the direction of an earlier one. */
static int pasted(const struct table *t, unsigned i) {
    const struct row *r = &t->row[i];
    for (unsigned j = 0; j < i; j++) {
        const struct row *w = &t->row[j];
        if (r->first == w->first && r->second == w->second && r->period == w->period && r->way == w->way) return 1;
    }
    return 0;
}

/* Leaves out the rows that repeat an earlier one. */
static void without_pasted(struct table *t) {
    unsigned left = 0;
    for (unsigned i = 0; i < t->rows; i++)
        if (!pasted(t, i)) t->row[left++] = t->row[i];
    t->rows = left;
}

/* Gives some row the ends and the period of another, and any cost. */
static void paste(struct table *t) {
    struct row *to = &t->row[below(t->rows)];
    *to = t->row[below(t->rows)];
    to->cost = between(1, to->period);
}

/* Many rows with long routes, on a board every third time. So many share a segment that each row's load has to be small, and the interval
 * long; then costs are raised as long as the bus can carry it. */
static void long_routes(struct table *t) {
    memset(t, 0, sizeof *t);
    t->rings = 1;
    t->elements = between(16, MAX_ELEMENTS);
    t->rows = between(40, MAX_ROWS);
    unsigned cut = between(1, t->elements), interval = between(MAX_ROWS + 2, 200), most = between(2, MAX_SLOTS / interval);
    for (unsigned i = 0; i < t->rows; i++) {
        struct row *r = &t->row[i];
        do r->cost = between(1, most);
        while (most % r->cost);
        r->period = interval * r->cost;
        unsigned a = below(t->elements), b = a + between(1, t->elements - a);
        r->first = (cut - 1 + a) % t->elements + 1;
        r->second = (cut - 1 + b) % t->elements + 1;
        if (r->first == r->second) r->second = r->first % t->elements + 1;
    }
    if (below(3) == 0) on_board(t);
    without_pasted(t);
    for (unsigned turn = 0; turn < 4 * t->rows; turn++) {
        struct file f;
        struct row *r = &t->row[below(t->rows)];
        unsigned was = r->cost, more = between(1, r->period / 16 + 1);
        if (more > r->period - was) continue;
        r->cost += more;
        encode(t, &f);
        if (plain_verdict(f.byte, f.length)) r->cost = was;
    }
}

/* Lowers or raises costs one by one until the table stands at the last step before its verdict changes, or just past it. */
static void to_the_bound(struct table *t, int past) {
    struct file f;
    struct verdict v;
    for (unsigned turn = 0; turn < 400; turn++) {
        encode(t, &f);
        oracle_verdict(f.byte, f.length, &v);
        if (v.number != 14) break;
        struct row *r = &t->row[below(t->rows)];
        if (r->cost > 1) r->cost--;
    }
    if (v.number) return;
    for (unsigned turn = 0; turn < 200; turn++) {
        struct table more = *t;
        struct row *r = &more.row[below(t->rows)];
        if (r->cost == r->period) continue;
        r->cost++;
        encode(&more, &f);
        oracle_verdict(f.byte, f.length, &v);
        if (v.number == 0) *t = more;
        else if (past) {
            *t = more;
            return;
        }
    }
}

/* Version 2 for every second table of one ring, with labels of both parties: the first and the last of each, and any. */
static void give_labels(struct table *t) {
    t->version = 1;
    if (t->rings == 2) return;
    t->version = between(1, 2);
    for (unsigned i = 0; i < t->rows; i++) {
        const unsigned some[] = {0, 1, LAST_OF_OURS, LAST_OF_OURS + 1, 65535, below(65536)};
        t->row[i].label = some[below(sizeof some / sizeof *some)];
    }
}

static void damage(struct file *f) {
    static const uint8_t ways[] = {2, 3, 255};
    switch (below(11)) {
    case 0: f->length = below(below(2) ? (unsigned)f->length + 1 : 8); break;
    case 1: f->length += between(1, 8); break;
    case 2:
        if (below(2)) f->byte[2] ^= 'T' ^ '2'; /* the other mark */
        else f->byte[below(3)] ^= (uint8_t)between(1, 255);
        break;
    case 3:
        if (below(2)) f->byte[3] ^= 3; /* the other version */
        else f->byte[3 + below(2)] ^= (uint8_t)between(1, 255);
        break;
    case 4: f->byte[5] = (uint8_t)below(256); break;
    case 5: f->byte[6] = (uint8_t)below(256); break;
    case 6: f->byte[7 + below((unsigned)f->length - 7)] = below(2) ? 255 : 0; break;
    case 7: f->byte[7 + below((unsigned)f->length - 7)] = (uint8_t)below(256); break;
    case 8:
    case 9: /* a direction of a board; of another table any byte of a row */
        f->byte[f->byte[2] == '2' ? 13 + 7 * below(f->byte[6]) : 7 + below((unsigned)f->length - 7)] = ways[below(sizeof ways)];
        break;
    default: memset(f->byte + 7, below(2) ? 255 : 0, f->length - 7); break;
    }
}

/* ---- one comparison */

enum { LAST_NUMBER = 32 };
static unsigned seen[LAST_NUMBER + 1];
static unsigned long admitted, labelled, slots, exact, uneven, newly, within, alone[2][2];
static unsigned long raised, raised_labelled, raised_admitted;
static unsigned long relayed[2], rescued, two_held; /* with a relay that splits no row, and with one that does */
static unsigned long boards[3], mirrors, apart[MAX_RINGS], uncut[MAX_RINGS], second_over; /* boards by busy rings: first, second, both */

static void fail(const struct file *f, const char *what) {
    printf("compare: %s; the table's bytes:\n", what);
    for (size_t i = 0; i < f->length; i++) printf("%02x%s", f->byte[i], (i + 1) % 32 ? " " : "\n");
    printf("\n");
    exit(1);
}

/* ---- lent memory. All buffers end where a page begins that nobody may touch, so a read or write past an end stops the run; what stands
 * before them and past the part in use is compared. */

static uint8_t *file_end, *out_end, kept_bytes[GUARD + FILE_ROOM];
static uint64_t *plan_end, kept[GUARD + MAX_SLOTS];

static void *fenced(size_t bytes) {
    size_t page = (size_t)sysconf(_SC_PAGESIZE), room = (bytes + page - 1) / page * page;
    uint8_t *at = mmap(NULL, room + page, PROT_READ | PROT_WRITE, MAP_PRIVATE | MAP_ANONYMOUS, -1, 0);
    if (at == MAP_FAILED || mprotect(at + room, page, PROT_NONE)) {
        perror("compare");
        exit(2);
    }
    return at + room;
}

/* Lends a plan of `room` words, with guard words before it. */
static uint64_t *lend(unsigned room) {
    uint64_t *plan = plan_end - room;
    for (uint64_t *w = plan - GUARD; w < plan_end; w++) *w = ((uint64_t)below(1u << 31) << 32) | below(1u << 31);
    memcpy(kept, plan - GUARD, (GUARD + room) * sizeof *kept);
    return plan;
}

/* the words from `from` on, and the guard before them all, are as they were */
static int unchanged_from(unsigned from, const uint64_t *plan, unsigned room) {
    return !memcmp(plan - GUARD, kept, GUARD * sizeof *kept) && !memcmp(plan + from, kept + GUARD + from, (room - from) * sizeof *kept);
}

/* The values and the list of sets, with room for all, for one too few and for more. */
static void compare_values(const struct file *given, const uint8_t *file, const struct verdict *v) {
    uint32_t values[RING_VALUES + 1], expected[RING_VALUES + 1];
    unsigned room = below(RING_VALUES + 2), wrong = 256 * v->number + v->place;
    if (!v->number && room < RING_VALUES) wrong = 256 * RING_SHORT_OUTPUT;
    for (unsigned k = 0; k <= RING_VALUES; k++) values[k] = expected[k] = below(1u << 31);
    if (!wrong) {
        expected[RING_CUT] = v->cut[0];
        expected[RING_SECOND_CUT] = v->cut[1];
        expected[RING_INTERVAL] = v->interval;
        expected[RING_HYPERPERIOD] = v->hyper;
        expected[RING_LOAD] = v->load;
        expected[RING_SETS] = v->sets;
    }
    if (ring_values(file, given->length, room ? values : NULL, room) != wrong) fail(given, "values are answered wrongly");
    if (memcmp(values, expected, sizeof values)) fail(given, "values differ");
}

static void compare_sets(const struct file *given, const uint8_t *file, const struct verdict *v) {
    uint64_t sets[MAX_ROWS + 1], expected[MAX_ROWS + 1];
    unsigned listed = v->number == 0 || v->number == 13 || v->number == 14, room = listed && below(3) ? v->sets : below(MAX_ROWS + 2);
    unsigned wrong = listed ? 0 : 256 * v->number + v->place;
    if (listed && room < v->sets) wrong = 256 * RING_SHORT_OUTPUT;
    for (unsigned k = 0; k <= MAX_ROWS; k++) sets[k] = expected[k] = below(1u << 31);
    if (!wrong) memcpy(expected, v->set, v->sets * sizeof *expected);
    if (ring_sets(file, given->length, room ? sets : NULL, room) != wrong) fail(given, "sets are answered wrongly");
    if (memcmp(sets, expected, sizeof sets)) fail(given, "sets differ");
}

/* The segments that two rows share: of every pair of rows where there are few, of some where there are many, and of rows past the last. */
static void compare_shared(const struct file *given, const uint8_t *file, const struct verdict *v) {
    int held = v->number == 0 || (v->number >= 10 && v->number != RING_WRONG_WAY);
    unsigned rows = held ? v->table.rows : 2;
    for (unsigned n = 0; n < rows * rows && n < 200; n++) {
        size_t i = rows <= FEW_ROWS ? n / rows : below(rows), j = rows <= FEW_ROWS ? n % rows : below(rows);
        uint32_t word = below(1u << 31), expected = word, wrong = held ? 0 : 256 * v->number + v->place;
        if (below(8) == 0) i = below(3) ? rows + below(3) : SIZE_MAX - below(2);
        if (below(8) == 0) j = below(3) ? rows + below(3) : SIZE_MAX - below(2);
        if (held && (i >= rows || j >= rows)) wrong = 256 * RING_NO_ROW + (i < rows);
        if (!wrong) expected = oracle_shared(&v->table, (unsigned)i, (unsigned)j);
        if (ring_shared(file, given->length, i, j, &word) != wrong) fail(given, "shared segments are answered wrongly");
        if (word != expected) fail(given, "shared segments differ");
        if (!wrong && (word != 0) != oracle_overlap(&v->table, (unsigned)i, (unsigned)j)) fail(given, "segments and overlap differ");
        seen[RING_NUMBER(wrong)] += RING_NUMBER(wrong) == RING_NO_ROW;
    }
}

/* ---- two parties */

/* A limit: a number of its own, any, or close to what the party asks for of some segment. */
static uint32_t any_limit(const struct verdict *v, int theirs) {
    static const uint32_t some[] = {0, 333, 334, 500, 1000, 1001, UINT32_MAX};
    int held = v->number == 0 || v->number == 13 || v->number == 14;
    if (below(6) == 0) return some[below(sizeof some / sizeof *some)];
    if (!held || below(6) == 0) return below(1001);
    struct fraction most = {0, 1};
    for (unsigned s = 1; s <= v->table.elements; s++) {
        struct fraction asked = oracle_asked(&v->table, theirs, s);
        if (asked.over >= most.over && (s == 1 || below(8))) most = asked;
    }
    uint64_t near = 1000 * most.over / most.under + below(3);
    return near > 1000 ? 1000 : near ? (uint32_t)near - 1 : 0;
}

/* Verdict and plan with limits; `words` are those of the plan without, where there is one. */
static void compare_limits(const struct file *given, const uint8_t *file, const struct verdict *v, const uint64_t *words) {
    unsigned planned = 0;
    for (unsigned n = 0; n < 6; n++) {
        uint32_t ours = any_limit(v, 0), theirs = any_limit(v, 1);
        struct answer a = oracle_limited(v, ours, theirs);
        uint32_t answer = ring_verdict_limited(file, given->length, ours, theirs);
        if (answer != 256 * a.number + a.place) {
            printf("limits %u, %u: library %u, %u; oracle %u, %u\n", ours, theirs, answer / 256, answer % 256, a.number, a.place);
            fail(given, "verdicts with limits differ");
        }
        seen[a.number] += 21 <= a.number && a.number <= 23;
        if (!a.number && planned++) continue;
        unsigned room = a.number ? below(MAX_SLOTS + 1) : below(4) ? between(v->hyper, MAX_SLOTS) : below(v->hyper);
        uint64_t *plan = lend(room);
        if (!a.number && room < v->hyper) answer = 256 * RING_SHORT_OUTPUT;
        if (ring_plan_limited(file, given->length, ours, theirs, plan, room) != answer)
            fail(given, "a plan with limits is answered wrongly");
        if (!unchanged_from(answer ? 0 : v->hyper, plan, room)) fail(given, "a plan with limits changed memory that is not its own");
        if (answer) continue;
        if (memcmp(plan, words, v->hyper * sizeof *plan)) fail(given, "a plan with limits has other words");
        within++;
    }
}

/* Verdict and plan with a relay: each element, and one before and one past them, or some of them. `plan` of the file without is `words`
 * where it has one. */
static void compare_relays(const struct file *given, const uint8_t *file, const struct verdict *v, const uint64_t *words) {
    static struct verdict split;
    static struct table table;
    static uint64_t other[MAX_SLOTS];
    oracle_given(given->byte, given->length, &table);
    const unsigned most = table.elements + 1;
    for (unsigned n = 0; n < 3; n++) {
        uint32_t relay = below(20) ? below(most + 1) : UINT32_MAX - below(2);
        oracle_relayed(given->byte, given->length, relay, &split);
        uint32_t answer = ring_verdict_relayed(file, given->length, relay), wanted = 256 * split.number + split.place;
        if (answer != wanted) {
            printf("relay %u: library %u, %u; oracle %u, %u\n", relay, answer / 256, answer % 256, split.number, split.place);
            fail(given, "verdicts with a relay differ");
        }
        seen[split.number] += split.number == 27 || split.number == 28;
        unsigned room = wanted ? below(MAX_SLOTS + 1) : below(4) ? between(split.hyper, MAX_SLOTS) : below(split.hyper);
        uint64_t *plan = lend(room);
        if (!wanted && room < split.hyper) wanted = 256 * RING_SHORT_OUTPUT;
        if (ring_plan_relayed(file, given->length, relay, plan, room) != wanted) fail(given, "a plan with a relay is answered wrongly");
        if (!unchanged_from(wanted ? 0 : split.hyper, plan, room)) fail(given, "a plan with a relay changed memory that is not its own");
        if (wanted) continue;
        const char *why = "";
        if (!oracle_keeps(&split, plan, &why)) fail(given, why);
        if (plain_plan_relayed(file, given->length, relay, other, split.hyper) || memcmp(other, plan, split.hyper * sizeof *other))
            fail(given, "plain.c has another plan with a relay");
        unsigned held = oracle_held(&table, relay, plan, split.hyper, &why);
        if (!held) fail(given, why);
        if (held > 2) fail(given, "the relay holds more than two jobs of a row");
        relayed[table.rows != split.table.rows]++;
        two_held += held == 2;
        rescued += v->number == 10;
        if (table.rows == split.table.rows && (!words || memcmp(plan, words, split.hyper * sizeof *plan)))
            fail(given, "a relay that no row goes through changes the plan");
    }
}

/* Keeps one party's rows and puts sound rows of the other before, between and after them. A route of one segment goes through no element,
 * so that most of these tables have a cut. */
static void other_rows(const struct table *t, int theirs, struct table *changed) {
    *changed = *t;
    changed->version = 2;
    changed->rows = 0;
    for (unsigned i = 0; i <= t->rows; i++) {
        for (unsigned more = below(3); more && changed->rows + t->rows - i < MAX_ROWS; more--) {
            struct row *r = &changed->row[changed->rows++];
            r->first = between(1, t->elements);
            r->second = r->first % t->elements + 1;
            r->period = t->row[below(t->rows)].period * between(1, 3);
            if (r->period > MAX_SLOTS || below(8) == 0) r->period = between(1, MAX_SLOTS);
            r->cost = between(1, below(2) ? r->period : r->period / 64 + 1);
            r->label = theirs ? between(0, LAST_OF_OURS) : between(LAST_OF_OURS + 1, 65535);
        }
        if (i < t->rows && (t->row[i].label > LAST_OF_OURS) == theirs) changed->row[changed->rows++] = t->row[i];
    }
}

/* Whether a party is over its limit, and where, is the same with other rows of the other party, as far as no other refusal comes before. */
static void compare_alone(const struct file *given, const struct verdict *v) {
    int theirs = (int)below(2);
    struct table changed;
    struct file f;
    if (v->table.rings == 2) return;
    other_rows(&v->table, theirs, &changed);
    if (!changed.rows) return;
    encode(&changed, &f);
    uint32_t limit = any_limit(v, theirs), before[2];
    for (unsigned k = 0; k < 2; k++) {
        const struct file *of = k ? &f : given;
        uint8_t *file = file_end - of->length;
        memcpy(file, of->byte, of->length);
        before[k] = ring_verdict_limited(file, of->length, theirs ? 1000 : limit, theirs ? limit : 1000);
        unsigned number = RING_NUMBER(before[k]), own = theirs ? RING_THEIR_LIMIT : RING_OUR_LIMIT;
        int later = number == 0 || number == RING_LIGHT_ROW || number == RING_OVER_BOUND || (!theirs && number == RING_THEIR_LIMIT);
        if (number != own && !later) return;
        if (later) before[k] = 0;
    }
    if (before[0] != before[1]) {
        for (size_t i = 0; i < f.length; i++) printf("%02x%s", f.byte[i], (i + 1) % 32 ? " " : "\n");
        printf("\nlimit %u of the %s party, with these rows of the other\n", limit, theirs ? "second" : "first");
        fail(given, "what is said of a party depends on the other's rows");
    }
    alone[theirs][before[0] != 0]++;
}

/* ---- light rows raised */

/* Lends `room` bytes for file f, with guard bytes before them; none of them is as it stands in f. */
static uint8_t *lend_bytes(const struct file *f, size_t room) {
    uint8_t *out = out_end - room;
    memset(out - GUARD, 0xa5, GUARD);
    for (size_t k = 0; k < room; k++) out[k] = (uint8_t)(f->byte[k] ^ 255);
    memcpy(kept_bytes, out - GUARD, GUARD + room);
    return out;
}

/* the bytes from `from` on, and the guard before them all, are as they were */
static int bytes_unchanged_from(size_t from, const uint8_t *out, size_t room) {
    return !memcmp(out - GUARD, kept_bytes, GUARD) && !memcmp(out + from, kept_bytes + GUARD + from, room - from);
}

/* The raised table as such: it is admitted or refused with 14, one slot less in a raised row is refused with 13, and in its plan the first
 * slots of every job of row i, as many as the cost was, come before its deadline. */
static void compare_result(const struct file *given, const struct verdict *was, const struct file *result, const struct table *t) {
    static struct verdict v;
    static uint64_t plan[MAX_SLOTS];
    uint8_t *file = file_end - result->length;
    memcpy(file, result->byte, result->length);
    oracle_verdict(result->byte, result->length, &v);
    uint32_t answer = ring_verdict(file, result->length);
    if (answer != 256 * v.number + v.place) fail(given, "verdicts of the raised table differ");
    if (v.number && v.number != RING_OVER_BOUND) fail(given, "the raised table is refused, and not with 14");
    for (unsigned i = 0; i < t->rows; i++) {
        if (t->row[i].cost == was->table.row[i].cost) continue;
        struct table less = *t;
        struct file f;
        less.row[i].cost--;
        encode(&less, &f);
        memcpy(file, f.byte, f.length);
        if (ring_verdict(file, f.length) != 256 * RING_LIGHT_ROW + i) fail(given, "a cost is raised to more than the least that passes");
    }
    raised++;
    raised_labelled += t->version == 2;
    if (v.number) return;
    memcpy(file, result->byte, result->length);
    if (ring_plan(file, result->length, plan, MAX_SLOTS)) fail(given, "the raised table is admitted and not planned");
    const char *why = "";
    if (!oracle_keeps(&v, plan, &why)) fail(given, why);
    for (unsigned i = 0; i < t->rows; i++)
        if (!oracle_arrives(&v, plan, i, was->table.row[i].cost)) fail(given, "data of a raised row comes after its deadline");
    raised_admitted++;
}

/* The file with its light rows raised, with room for it, for one byte less and for one more. */
static void compare_raise(const struct file *given, const uint8_t *file, const struct verdict *v) {
    struct file wanted = *given;
    struct table t = v->table;
    struct answer a = oracle_one_ring(v);
    unsigned held = a.number == 0 || a.number == 13 || a.number == 14, light = 0;
    for (unsigned i = 0; held && i < t.rows; i++) {
        t.row[i].cost = oracle_raised(v, i);
        light += t.row[i].cost != v->table.row[i].cost;
    }
    if (held) encode(&t, &wanted);
    if (wanted.length != given->length || (a.number == 13) != (light > 0)) fail(given, "the oracle raises the wrong rows");
    for (size_t room = given->length ? given->length - 1 : 0; room <= given->length + 1; room++) {
        uint8_t *out = lend_bytes(&wanted, room);
        uint32_t answer = held ? 0 : 256 * a.number + a.place;
        if (held && room < given->length) answer = 256 * RING_SHORT_OUTPUT;
        if (ring_raise(file, given->length, room ? out : NULL, room) != answer) fail(given, "raising is answered wrongly");
        if (!answer && memcmp(out, wanted.byte, wanted.length)) fail(given, "raised tables differ");
        if (!bytes_unchanged_from(answer ? 0 : wanted.length, out, room)) fail(given, "raising changed memory that is not its own");
    }
    if (memcmp(file, given->byte, given->length)) fail(given, "raising changed the file's own bytes");
    if (light) compare_result(given, v, &wanted, &t);
}

/* The lists of an admitted table's plan, of every element: each byte for byte, and together each move twice, sent once, received once. */
static void compare_lists(const struct file *given, const uint8_t *file, const struct verdict *v, const uint64_t *plan) {
    static uint8_t list[RING_LIST_BYTES + 1], expected[RING_LIST_BYTES + 1];
    static unsigned char moved[2][MAX_SLOTS][MAX_ROWS];
    memset(moved, 0, sizeof moved);
    size_t entries = 0, moves = 0;
    for (unsigned e = 1; e <= v->table.elements; e++) {
        size_t size = oracle_list(v, plan, e, expected), room = size + below(2);
        memset(list, 0xee, sizeof list);
        memset(expected + size, 0xee, sizeof expected - size);
        if (ring_element_list(file, given->length, plan, v->hyper, e, list, room) != size) fail(given, "a list is answered wrongly");
        if (memcmp(list, expected, sizeof list)) fail(given, "lists differ");
        for (size_t at = RING_LIST_HEADER; at < size; at += RING_ENTRY_BYTES, entries++)
            moved[list[at + RING_ENTRY_WAY]][list[at] + 256 * list[at + 1]][list[at + RING_ENTRY_ROW]]++;
    }
    for (unsigned s = 0; s < v->hyper; s++)
        for (unsigned i = 0; i < v->table.rows; i++) {
            unsigned set = plan[s] >> i & 1;
            moves += set;
            if (moved[0][s][i] != set || moved[1][s][i] != set) fail(given, "a move is not received once and sent once");
        }
    if (entries != 2 * moves) fail(given, "the lists have other moves than the plan");
}

/* What the maker of lists refuses, in its order: a bad element before a bad word, a bad word of a short plan before its length. */
static void compare_bad_lists(const struct file *given, const uint8_t *file, const struct verdict *v, const uint64_t *plan) {
    static uint8_t list[RING_LIST_BYTES], kept_list[RING_LIST_BYTES];
    static uint64_t words[MAX_SLOTS + 2];
    struct answer a = oracle_one_ring(v);
    const unsigned elements[] = {0, 1, a.number ? 1 : v->table.elements, a.number ? 2 : v->table.elements + 1, 33, 0xffffffffu};
    unsigned element = elements[below(6)], bad = MAX_SLOTS;
    unsigned present = a.number ? below(9) : v->hyper - (below(3) == 0) * below(v->hyper + 1);
    uint64_t wrong = a.number;
    if (!a.number) {
        memcpy(words, plan, v->hyper * sizeof *words);
        words[v->hyper] = words[v->hyper + 1] = UINT64_MAX; /* past h: never looked at */
        if (below(2)) words[below(v->hyper)] = below(2) ? UINT64_MAX >> below(64) : (uint64_t)1 << below(64);
        for (unsigned s = v->hyper; s-- > 0;)
            if (s < present && oracle_bad_word(&v->table, words[s])) bad = s;
        if (present == v->hyper && below(2)) present += 1 + below(2);
    }
    size_t size = RING_LIST_BYTES, room = 0;
    if (!a.number && element >= 1 && element <= v->table.elements && bad == MAX_SLOTS && present >= v->hyper)
        size = oracle_list(v, words, element, kept_list);
    room = below(2) ? RING_LIST_BYTES : below(2) ? size - 1 : below(8);
    uint64_t refusal = wrong << 32 | a.place;
    if (!wrong && (element < 1 || element > v->table.elements)) refusal = (uint64_t)RING_WRONG_ELEMENT << 32;
    else if (!wrong && bad < MAX_SLOTS) refusal = (uint64_t)RING_BAD_WORD << 32 | bad;
    else if (!wrong && (present < v->hyper || room < size)) refusal = (uint64_t)RING_SHORT_OUTPUT << 32;
    memset(list, 0xee, sizeof list);
    memset(kept_list, 0xee, sizeof kept_list);
    uint64_t answer = ring_element_list(file, given->length, words, present, element, room ? list : NULL, room);
    if (refusal) {
        if (answer != refusal) fail(given, "a list is refused wrongly");
        if (memcmp(list, kept_list, sizeof list)) fail(given, "a refused list changed lent memory");
        seen[RING_LIST_NUMBER(refusal)] += RING_LIST_NUMBER(refusal) == RING_WRONG_ELEMENT || RING_LIST_NUMBER(refusal) == RING_BAD_WORD;
    } else if (answer != size) fail(given, "a list is answered wrongly");
}

/* ---- boards of two rings */

static const char *const answered[] = {"verdict", "plan"};

/* The library's verdict on a table, or its plan: an answer, and the words where there are some. */
static uint32_t answer_of(const struct table *t, unsigned planned, uint64_t *words) {
    struct file f;
    encode(t, &f);
    uint8_t *file = file_end - f.length;
    memcpy(file, f.byte, f.length);
    return planned ? ring_plan(file, f.length, words, MAX_SLOTS) : ring_verdict(file, f.length);
}

/* The values and the list of sets of a board that is admitted. */
static void found_of(const struct table *t, uint32_t *values, uint64_t *sets) {
    struct file f;
    encode(t, &f);
    uint8_t *file = file_end - f.length;
    memcpy(file, f.byte, f.length);
    if (ring_values(file, f.length, values, RING_VALUES) || ring_sets(file, f.length, sets, MAX_ROWS)) fail(&f, "a board has no values");
}

static int has_rows(const struct table *t, unsigned way) {
    for (unsigned i = 0; i < t->rows; i++)
        if (t->row[i].way == way) return 1;
    return 0;
}

/* How many of the sets listed are of the first ring: they come first. */
static unsigned of_first(const struct table *t, const uint64_t *sets, unsigned count) {
    unsigned n = 0;
    while (n < count && !t->row[__builtin_ctzll(sets[n])].way) n++;
    return n;
}

/* A board seen from its other side: every row turned. It has the very same words; the rings change places in cuts and sets, and so do the
 * places of 10 and 14. A table of one ring is taken as a board with its rows on one ring, which has the table's own answers and words. */
static void compare_mirrored(const struct table *given) {
    static uint64_t words[2][MAX_SLOTS], sets[2][MAX_ROWS];
    struct table t = *given, other;
    struct file f;
    encode(given, &f);
    t.rings = 2;
    t.version = 1;
    other = t;
    for (unsigned i = 0; i < t.rows; i++) turn(&t, &other.row[i]);
    for (unsigned planned = 0; planned < 2; planned++) {
        uint32_t one = answer_of(&t, planned, words[0]), two = answer_of(&other, planned, words[1]);
        unsigned moved = RING_NUMBER(one) == RING_NO_CUT || RING_NUMBER(one) == RING_OVER_BOUND;
        if (moved ? RING_NUMBER(one) != RING_NUMBER(two) : one != two) fail(&f, answered[planned]);
        if (given->rings == 1 && one != answer_of(given, planned, words[1])) fail(&f, "on one ring of a board the answer is another");
        if (one) return;
    }
    uint32_t values[2][RING_VALUES];
    found_of(&t, values[0], sets[0]);
    found_of(&other, values[1], sets[1]);
    unsigned hyper = values[0][RING_HYPERPERIOD], count = values[0][RING_SETS], first = of_first(&t, sets[0], count);
    for (unsigned way = 0; way < 2; way++) {
        uint32_t cut = values[0][way ? RING_SECOND_CUT : RING_CUT], mirrored = values[1][way ? RING_CUT : RING_SECOND_CUT];
        if (mirrored != (has_rows(&t, way) ? t.elements + 1 - cut : 1)) fail(&f, "a cut is not mirrored");
    }
    if (memcmp(values[0] + RING_INTERVAL, values[1] + RING_INTERVAL, (RING_VALUES - RING_INTERVAL) * sizeof **values)
        || memcmp(sets[0], sets[1] + count - first, first * sizeof **sets)
        || memcmp(sets[0] + first, sets[1], (count - first) * sizeof **sets))
        fail(&f, "what is found of a board is not what is found of it mirrored");
    if (memcmp(words[0], words[1], hyper * sizeof **words)) fail(&f, "a mirrored board has other words");
    mirrors++;
}

/* Keeps the rows of one ring and puts others on the other, one for each period that it had, so that all intervals end where they did. */
static void other_ring(const struct table *t, unsigned way, struct table *changed, unsigned *place) {
    unsigned l = shortest(t), periods = 0, period[MAX_ROWS];
    *changed = *t;
    changed->rows = 0;
    for (unsigned i = 0; i < t->rows; i++) {
        unsigned k = 0;
        while (k < periods && period[k] != t->row[i].period) k++;
        if (k == periods && t->row[i].way != way) period[periods++] = t->row[i].period;
    }
    for (unsigned i = 0; i <= t->rows; i++) {
        for (; periods && (i == t->rows || below(3) == 0); periods--) {
            struct row *r = &changed->row[changed->rows++];
            r->way = 1 - way;
            r->first = between(1, t->elements);
            r->second = r->way ? (r->first + t->elements - 2) % t->elements + 1 : r->first % t->elements + 1;
            r->period = period[periods - 1];
            r->cost = (r->period + l - 1) / l;
        }
        if (i < t->rows && t->row[i].way == way) place[i] = changed->rows, changed->row[changed->rows++] = t->row[i];
    }
}

/* The words of one ring's rows are the same with other rows on the other ring, as far as these pass and no interval ends elsewhere. */
static void compare_apart(const struct table *t, const uint64_t *plan, unsigned hyper) {
    static uint64_t words[MAX_SLOTS];
    unsigned way = below(2), place[MAX_ROWS];
    struct table changed;
    struct file f;
    if (!has_rows(t, 0) || !has_rows(t, 1)) return;
    other_ring(t, way, &changed, place);
    encode(t, &f);
    uint32_t answer = answer_of(&changed, 1, words);
    if (RING_NUMBER(answer) == RING_OVER_BOUND || RING_NUMBER(answer) == RING_PASTED_ROW) return; /* of the rows put there */
    if (answer) fail(&f, "a ring's rows are refused with other rows on the other ring");
    for (unsigned s = 0; s < hyper; s++)
        for (unsigned i = 0; i < t->rows; i++)
            if (t->row[i].way == way && (plan[s] >> i & 1) != (words[s] >> place[i] & 1))
                fail(&f, "a ring's words depend on the other ring's rows");
    apart[way]++;
}

/* What is counted of a board that is admitted, and its rings apart. */
static void compare_board(const struct verdict *v, const uint64_t *plan) {
    boards[has_rows(&v->table, 0) + 2 * has_rows(&v->table, 1) - 1]++;
    for (unsigned n = 0; n < 4; n++) compare_apart(&v->table, plan, v->hyper);
}

static void compare(const struct file *given) {
    static struct verdict v;
    uint8_t *file = file_end - given->length;
    memcpy(file, given->byte, given->length);
    oracle_verdict(given->byte, given->length, &v);
    uint32_t answer = ring_verdict(file, given->length);
    if (answer != 256 * v.number + v.place) {
        printf("library %u, %u; oracle %u, %u\n", answer / 256, answer % 256, v.number, v.place);
        fail(given, "verdicts differ");
    }
    if (words_verdict(file, given->length) != answer) fail(given, "words.c has another verdict");
    seen[v.number]++;
    if (v.number == 10) uncut[v.place]++;
    if (v.number == 14) second_over += v.table.row[__builtin_ctzll(v.set[v.place])].way;
    if ((v.number == 13 || v.number == 14) && oracle_before(&v)) fail(given, "a table that was admitted before #105 is refused");
    if (!v.number && v.interval != shortest(&v.table)) fail(given, "L is not the least greatest common divisor of two periods");
    compare_values(given, file, &v);
    compare_sets(given, file, &v);
    compare_shared(given, file, &v);
    compare_raise(given, file, &v);
    memcpy(file, given->byte, given->length); /* the raised table stood there */
    unsigned room = v.number ? below(MAX_SLOTS + 1) : v.hyper;
    if (v.number == 0 && below(4) == 0) {
        unsigned few = below(v.hyper);
        uint64_t *plan = lend(few);
        if (ring_plan(file, given->length, plan, few) != 256 * RING_SHORT_OUTPUT) fail(given, "a short plan was not refused with 17");
        if (!unchanged_from(0, plan, few)) fail(given, "a refusal for room changed lent memory");
        if (ring_plain_plan(file, given->length, plan, few) != 256 * RING_SHORT_OUTPUT)
            fail(given, "the plain planner did not refuse a short plan with 17");
        if (!unchanged_from(0, plan, few)) fail(given, "a refusal for room by the plain planner changed lent memory");
        seen[RING_SHORT_OUTPUT]++;
        room = between(v.hyper, MAX_SLOTS);
    }
    /* the plain planner first, as both fill the same lent memory */
    static uint64_t plain[MAX_SLOTS];
    uint64_t *plan = lend(room);
    if (ring_plain_plan(file, given->length, plan, room) != 256 * v.number + v.place) fail(given, "plain plan and verdict differ");
    if (!unchanged_from(v.number ? 0 : v.hyper, plan, room)) fail(given, "the plain planner changed memory that is not its own");
    if (!v.number) memcpy(plain, plan, v.hyper * sizeof *plain);
    plan = lend(room);
    answer = ring_plan(file, given->length, plan, room);
    if (answer != 256 * v.number + v.place) fail(given, "plan and verdict differ");
    if (memcmp(file, given->byte, given->length)) fail(given, "the file's own bytes changed");
    if (below(2) == 0) compare_bad_lists(given, file, &v, plan);
    if (v.number) {
        if (!unchanged_from(0, plan, room)) fail(given, "a refusal changed lent memory");
        compare_limits(given, file, &v, NULL);
        compare_relays(given, file, &v, NULL);
        for (unsigned n = 0; n < 4 && (v.number == 13 || v.number == 14); n++) compare_alone(given, &v);
        return;
    }
    if (!unchanged_from(v.hyper, plan, room)) fail(given, "memory past the plan changed");
    if (memcmp(plain, plan, v.hyper * sizeof *plain)) fail(given, "the plain planner's words differ");
    const char *why = "";
    if (!oracle_keeps(&v, plan, &why)) fail(given, why);
    if (v.table.rings == 1 && below(8) == 0) compare_lists(given, file, &v, plan);
    admitted++;
    labelled += v.table.version == 2;
    slots += v.hyper;
    uneven += v.intervals * v.interval != v.hyper;
    newly += !oracle_before(&v);
    static uint64_t other[MAX_SLOTS];
    if (words_plan(file, given->length, other, v.hyper) || memcmp(other, plan, v.hyper * sizeof *other)) fail(given, "words.c differs");
    if (plain_plan(file, given->length, other, v.hyper) || memcmp(other, plan, v.hyper * sizeof *other)) fail(given, "plain.c differs");
    if (v.table.rows <= FEW_ROWS) {
        uint64_t had[MAX_ROWS] = {0}, load[MAX_ROWS], word[MAX_SLOTS];
        for (unsigned k = 0; k < v.intervals; k++) {
            if (!oracle_loads(&v, k, had, load)) fail(given, "no loads qualify");
            oracle_words(&v, k, load, word);
            unsigned start = oracle_start(&v, k);
            if (memcmp(word, plan + start, (v.end[k] - start) * sizeof *word))
                fail(given, "loads are not the greatest in row order");
            for (unsigned i = 0; i < v.table.rows; i++) had[i] += load[i];
        }
        exact++;
    }
    compare_limits(given, file, &v, plain);
    compare_relays(given, file, &v, plain);
    for (unsigned n = 0; n < 4; n++) compare_alone(given, &v);
    if (v.table.rings == 2) compare_board(&v, plain);
}

/* 12 is retired, 15 and 16 are the planner's, and 20, 24, 25, 30 and 31 are given by none of the functions. */
static int given_by_some(unsigned n) {
    return (n <= 19 && n != 12 && n != 15 && n != 16) || (21 <= n && n <= 23) || (26 <= n && n <= 29) || n == 32;
}

int main(int argc, char **argv) {
    file_end = fenced(FILE_ROOM);
    out_end = fenced(GUARD + FILE_ROOM);
    plan_end = fenced((GUARD + MAX_SLOTS) * sizeof *plan_end);
    unsigned long tables = argc > 1 ? strtoul(argv[1], NULL, 10) : 20000;
    int routes = argc > 3 && !strcmp(argv[3], "routes");
    state = 0x9e3779b97f4a7c15u ^ (argc > 2 ? strtoull(argv[2], NULL, 10) * 0x2545f4914f6cdd1du : 1);
    /* no bytes at all, and none to write to */
    if (ring_verdict(NULL, 0) != 256 * RING_SHORT_FILE || ring_plan(NULL, 0, NULL, 0) != 256 * RING_SHORT_FILE
        || ring_verdict_limited(NULL, 0, 0, 1000) != 256 * RING_SHORT_FILE
        || ring_verdict_limited(NULL, 0, 0, 1001) != 256 * RING_WRONG_LIMIT
        || ring_plan_limited(NULL, 0, 1000, 0, NULL, 0) != 256 * RING_SHORT_FILE
        || ring_verdict_relayed(NULL, 0, 1) != 256 * RING_SHORT_FILE || ring_plan_relayed(NULL, 0, 0, NULL, 0) != 256 * RING_SHORT_FILE
        || ring_raise(NULL, 0, NULL, 0) != 256 * RING_SHORT_FILE) {
        printf("compare: a file of no bytes is answered wrongly\n");
        return 1;
    }
    for (unsigned long n = 0; n < tables; n++) {
        struct table t;
        struct file f = {.length = 0};
        if (routes || below(40) == 0) long_routes(&t); /* some of them, split at a relay, have too many rows */
        else if (below(5) == 0) uneven_table(&t);
        else random_table(&t);
        if (!routes && below(3) == 0) on_board(&t);
        if (!routes && t.rings == 2 && below(10) == 0) round_second(&t);
        if (!routes && below(40) == 0) lengthen(&t);
        if (!routes && below(30)) without_pasted(&t);
        if (!routes && below(3) == 0) to_the_bound(&t, (int)below(2));
        if (!routes && below(30) == 0) paste(&t);
        give_labels(&t);
        if (below(4) == 0) compare_mirrored(&t);
        encode(&t, &f);
        if (!routes && below(4) == 0) damage(&f);
        compare(&f);
    }
    printf("%lu tables, %lu admitted, %lu of them with the oracle's exact words, %lu slots of plan\n", tables, admitted, exact, slots);
    printf("%lu of version 2\n", labelled);
    printf("%lu planned with limits; with other rows of the other party, ours over %lu times and not %lu, theirs %lu and %lu\n", within,
        alone[0][1], alone[0][0], alone[1][1], alone[1][0]);
    printf("%lu with intervals of different length, %lu that the greatest common divisor of all periods refuses\n", uneven, newly);
    printf("%lu boards with the first ring busy alone, %lu with the second, %lu with both; %lu mirrored; other rows on the other ring "
           "%lu and %lu times\n", boards[0], boards[1], boards[2], mirrors, apart[0], apart[1]);
    printf("10 of the first ring %lu times and of the second %lu, 14 of a set of the second %lu\n", uncut[0], uncut[1], second_over);
    printf("greedy was not enough in %lu of %lu intervals\n", words_settled, words_intervals);
    printf("%lu with light rows raised, %lu of them of version 2, %lu admitted then and %lu refused with 14\n", raised, raised_labelled,
        raised_admitted, raised - raised_admitted);
    printf("%lu planned with a relay that splits rows and %lu with one that splits none, %lu that get 10 without; two jobs of a row held "
           "in %lu\n", relayed[1], relayed[0], rescued, two_held);
    if (routes) return 0;
    if (!labelled || !uneven || !newly || !within || !alone[0][0] || !alone[0][1] || !alone[1][0] || !alone[1][1] || !raised_labelled
        || !raised_admitted || raised == raised_admitted || !boards[0] || !boards[1] || !boards[2] || !mirrors || !apart[0] || !apart[1]
        || !uncut[0] || !uncut[1] || !second_over || !relayed[0] || !relayed[1] || !rescued || !two_held) {
        printf("compare: no such table was seen\n");
        return 1;
    }
    printf("refusals:");
    for (unsigned n = 1; n <= LAST_NUMBER; n++)
        if (given_by_some(n)) printf(" %u:%u", n, seen[n]);
    printf("\n");
    for (unsigned n = 1; n <= LAST_NUMBER; n++)
        if (!seen[n] && given_by_some(n)) {
            printf("compare: refusal %u was never seen\n", n);
            return 1;
        }
    return 0;
}
