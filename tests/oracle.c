#include "oracle.h"

#include <stdio.h>
#include <stdlib.h>
#include <string.h>

/* ---- the bus */

/* The element after e, the way that a row runs. */
static unsigned after(const struct table *t, unsigned way, unsigned e) {
    if (way) return e == 1 ? t->elements : e - 1;
    return e == t->elements ? 1 : e + 1;
}

/* The segments that a row uses, bit s for segment s: from its first element on until its second is reached. A segment has the number of
 * the element at which it begins clockwise. */
static uint64_t segments(const struct table *t, unsigned i) {
    const struct row *r = &t->row[i];
    uint64_t used = 0;
    for (unsigned e = r->first; e != r->second; e = after(t, r->way, e)) used |= (uint64_t)1 << (r->way ? after(t, r->way, e) : e);
    return used;
}

uint32_t oracle_shared(const struct table *t, unsigned i, unsigned j) {
    return t->row[i].way == t->row[j].way ? (uint32_t)((segments(t, i) & segments(t, j)) >> 1) : 0;
}

int oracle_overlap(const struct table *t, unsigned i, unsigned j) {
    return oracle_shared(t, i, j) != 0;
}

int oracle_bad_word(const struct table *t, uint64_t word) {
    for (unsigned i = 0; i < MAX_ROWS; i++) {
        if (!(word >> i & 1)) continue;
        if (i >= t->rows) return 1;
        for (unsigned j = 0; j < i; j++)
            if ((word >> j & 1) && oracle_overlap(t, i, j)) return 1;
    }
    return 0;
}

size_t oracle_list(const struct verdict *v, const uint64_t *plan, unsigned element, uint8_t *list) {
    const uint8_t head[] = {0x52, 0x42, 0x45, 1, 0, (uint8_t)element, (uint8_t)(v->hyper % 256), (uint8_t)(v->hyper / 256)};
    size_t at = sizeof head;
    memcpy(list, head, sizeof head);
    for (unsigned s = 0; s < v->hyper; s++)
        for (unsigned way = 0; way < 2; way++)
            for (unsigned i = 0; i < v->table.rows; i++) {
                if (!(plan[s] >> i & 1) || (way ? v->table.row[i].first : v->table.row[i].second) != element) continue;
                const uint8_t entry[] = {(uint8_t)(s % 256), (uint8_t)(s / 256), (uint8_t)i, (uint8_t)way};
                memcpy(list + at, entry, sizeof entry);
                at += sizeof entry;
            }
    return at;
}

static int goes_through(const struct table *t, unsigned i, unsigned element) {
    unsigned e = t->row[i].first;
    for (;;) {
        e = after(t, t->row[i].way, e);
        if (e == t->row[i].second) return 0;
        if (e == element) return 1;
    }
}

/* The first element, in the order in which a ring runs, that none of its rows goes through: from 1 up clockwise, from M down
 * counterclockwise; 0 where there is none. A ring with no rows is cut at 1. */
static unsigned cut_of(const struct table *t, unsigned way) {
    unsigned rows = 0;
    for (unsigned i = 0; i < t->rows; i++) rows += t->row[i].way == way;
    if (!rows) return 1;
    for (unsigned n = 1; n <= t->elements; n++) {
        unsigned e = way ? t->elements + 1 - n : n;
        int clear = 1;
        for (unsigned i = 0; i < t->rows; i++) clear &= t->row[i].way != way || !goes_through(t, i, e);
        if (clear) return e;
    }
    return 0;
}

static unsigned on_line(const struct verdict *v, unsigned way, unsigned e) {
    unsigned place = 1;
    for (unsigned at = v->cut[way]; at != e; at = after(&v->table, way, at)) place++;
    return place;
}

/* a row's ends on the line of its own ring */
static unsigned line_first(const struct verdict *v, unsigned i) {
    return on_line(v, v->table.row[i].way, v->table.row[i].first);
}

static unsigned line_second(const struct verdict *v, unsigned i) {
    const struct row *r = &v->table.row[i];
    return r->second == v->cut[r->way] ? v->table.elements + 1 : on_line(v, r->way, r->second);
}

/* ---- whole numbers */

static uint64_t gcd(uint64_t a, uint64_t b) {
    while (a != b) {
        if (a > b) a -= b;
        else b -= a;
    }
    return a;
}

static int has(uint64_t set, unsigned i) {
    return (int)(set >> i & 1);
}

/* ---- overlap sets: every largest set of rows that all overlap one another, by extending sets row by row */

struct search {
    const struct table *table;
    uint64_t near[MAX_ROWS]; /* the other rows that overlap each */
    struct verdict *v;
};

static void extend(struct search *s, uint64_t chosen, uint64_t open, uint64_t closed) {
    if (!open && !closed) {
        if (s->v->sets < MAX_SETS) s->v->set[s->v->sets++] = chosen;
        return;
    }
    /* a row next to as many open ones as there can be; only rows not next to it need be tried */
    uint64_t best = 0;
    int most = -1;
    for (unsigned i = 0; i < s->table->rows; i++) {
        if (!has(open | closed, i)) continue;
        int n = __builtin_popcountll(open & s->near[i]);
        if (n > most) most = n, best = s->near[i];
    }
    for (unsigned i = 0; i < s->table->rows; i++) {
        if (!has(open & ~best, i)) continue;
        extend(s, chosen | (uint64_t)1 << i, open & s->near[i], closed & s->near[i]);
        open &= ~((uint64_t)1 << i);
        closed |= (uint64_t)1 << i;
    }
}

/* The least second end of a set's rows, those of the second ring past all of the first. */
static unsigned least_second(const struct verdict *v, uint64_t set) {
    unsigned least = ~0u;
    for (unsigned i = 0; i < v->table.rows; i++) {
        unsigned second = line_second(v, i) + 100 * v->table.row[i].way;
        if (has(set, i) && second < least) least = second;
    }
    return least;
}

/* Lists the sets by ascending least second end, clockwise first. Two of them can't tie; the run stops where they do. */
static void list_sets(struct verdict *v) {
    struct search s = {.table = &v->table, .v = v};
    uint64_t all = 0;
    for (unsigned i = 0; i < v->table.rows; i++) {
        all |= (uint64_t)1 << i;
        for (unsigned j = 0; j < v->table.rows; j++)
            if (i != j && oracle_overlap(&v->table, i, j)) s.near[i] |= (uint64_t)1 << j;
    }
    v->sets = 0;
    extend(&s, 0, all, 0);
    for (unsigned i = 1; i < v->sets; i++)
        for (unsigned j = i; j > 0 && least_second(v, v->set[j]) < least_second(v, v->set[j - 1]); j--) {
            uint64_t w = v->set[j];
            v->set[j] = v->set[j - 1];
            v->set[j - 1] = w;
        }
    for (unsigned i = 1; i < v->sets; i++)
        if (least_second(v, v->set[i]) == least_second(v, v->set[i - 1])) {
            fprintf(stderr, "oracle: two overlap sets have the same least second end\n");
            exit(1);
        }
}

/* ---- the verdict */

static void refuse(struct verdict *v, unsigned number, unsigned place) {
    unsigned rings = v->table.rings;
    memset(v, 0, sizeof *v);
    v->table.rings = rings;
    v->number = number;
    v->place = place;
}

/* A refusal of a table that has its list of sets, which stays. */
static void refuse_listed(struct verdict *v, unsigned number, unsigned place) {
    v->number = number;
    v->place = place;
}

static uint64_t load_of(const struct verdict *v, uint64_t set) {
    uint64_t sum = 0;
    for (unsigned i = 0; i < v->table.rows; i++)
        if (has(set, i)) sum += (uint64_t)(v->hyper / v->table.row[i].period) * v->table.row[i].cost;
    return sum;
}

/* Time is cut at every slot that is a multiple of some row's period; the shortest piece is L. */
static void cut_time(struct verdict *v) {
    unsigned start = 0;
    v->interval = v->hyper;
    for (unsigned s = 1; s <= v->hyper; s++) {
        int ends = 0;
        for (unsigned i = 0; i < v->table.rows; i++) ends |= s % v->table.row[i].period == 0;
        if (!ends) continue;
        v->end[v->intervals++] = s;
        if (s - start < v->interval) v->interval = s - start;
        start = s;
    }
}

unsigned oracle_start(const struct verdict *v, unsigned k) {
    return k ? v->end[k - 1] : 0;
}

static unsigned length_of(const struct verdict *v, unsigned k) {
    return v->end[k] - oracle_start(v, k);
}

/* A row's cost or a set's load that L is too short for; where periods are equal, none but a load above 1. */
static int light(const struct row *r, uint64_t l, int equal) {
    return !equal && r->cost * l < r->period;
}

static int over(uint64_t load, uint64_t h, uint64_t l, int equal) {
    return equal ? load > h : load * l > (l - 1) * h;
}

int oracle_before(const struct verdict *v) {
    const struct table *t = &v->table;
    uint64_t l = t->row[0].period;
    int equal = 1;
    for (unsigned i = 0; i < t->rows; i++) l = gcd(l, t->row[i].period), equal &= t->row[i].period == t->row[0].period;
    for (unsigned i = 0; i < t->rows; i++)
        if (light(&t->row[i], l, equal)) return 0;
    for (unsigned k = 0; k < v->sets; k++)
        if (over(load_of(v, v->set[k]), v->hyper, l, equal)) return 0;
    return 1;
}

/* 1 to 9, 26 and 18: the table as it is given. */
static void read_table(const uint8_t *f, size_t length, struct verdict *v) {
    memset(v, 0, sizeof *v);
    struct table *t = &v->table;
    if (length < 7) { refuse(v, 1, 0); return; }
    if (f[0] != 0x52 || f[1] != 0x42 || (f[2] != 0x54 && f[2] != 0x32)) { refuse(v, 2, 0); return; }
    t->rings = f[2] == 0x54 ? 1 : 2;
    t->version = f[3] + 256u * f[4];
    if (t->version != 1 && (t->version != 2 || t->rings == 2)) { refuse(v, 3, 0); return; }
    t->elements = f[5];
    t->rows = f[6];
    if (t->elements < 2 || t->elements > MAX_ELEMENTS) { refuse(v, 4, 0); return; }
    if (t->rows < 1 || t->rows > MAX_ROWS) { refuse(v, 5, 0); return; }
    size_t size = t->rings == 2 ? 7 : t->version == 1 ? 6 : 8;
    if (length != 7 + size * t->rows) { refuse(v, 6, 0); return; }
    for (unsigned i = 0; i < t->rows; i++) {
        const uint8_t *r = f + 7 + size * i;
        struct row *w = &t->row[i];
        w->cost = r[0] + 256u * r[1];
        w->period = r[2] + 256u * r[3];
        w->first = r[4];
        w->second = r[5];
        w->label = t->version == 1 ? 0 : r[6] + 256u * r[7];
        w->way = t->rings == 2 ? r[6] : 0;
        if (w->first < 1 || w->first > t->elements || w->second < 1 || w->second > t->elements || w->first == w->second) {
            refuse(v, 7, i);
            return;
        }
        if (w->period < 1 || w->period > MAX_SLOTS) { refuse(v, 8, i); return; }
        if (w->cost < 1 || w->cost > w->period) { refuse(v, 9, i); return; }
        if (w->way > 1) { refuse(v, 26, i); return; }
    }
    for (unsigned i = 1; i < t->rows; i++)
        for (unsigned j = 0; j < i; j++) {
            const struct row *a = &t->row[i], *b = &t->row[j];
            if (a->first == b->first && a->second == b->second && a->period == b->period && a->way == b->way) { refuse(v, 18, i); return; }
        }
}

/* 10 to 14, of a table that has passed those. */
static void judge_table(struct verdict *v) {
    const struct table *t = &v->table;
    for (unsigned way = 0; way < t->rings; way++) {
        v->cut[way] = cut_of(t, way);
        if (!v->cut[way]) { refuse(v, 10, way); return; }
    }
    uint64_t h = 1;
    int equal = 1;
    for (unsigned i = 0; i < t->rows; i++) {
        uint64_t p = t->row[i].period;
        h = h / gcd(h, p) * p;
        if (h > MAX_SLOTS) { refuse(v, 11, 0); return; }
        equal &= p == t->row[0].period;
    }
    v->hyper = (unsigned)h;
    cut_time(v);
    list_sets(v);
    for (unsigned i = 0; i < t->rows; i++)
        if (light(&t->row[i], v->interval, equal)) { refuse_listed(v, 13, i); return; }
    uint64_t largest = 0;
    for (unsigned k = 0; k < v->sets; k++) {
        uint64_t load = load_of(v, v->set[k]);
        if (over(load, h, v->interval, equal)) { refuse_listed(v, 14, k); return; }
        if (load > largest) largest = load;
    }
    v->load = (unsigned)((1000 * largest + h - 1) / h);
}

void oracle_verdict(const uint8_t *f, size_t length, struct verdict *v) {
    read_table(f, length, v);
    if (!v->number) judge_table(v);
}

/* ---- a relay */

void oracle_given(const uint8_t *f, size_t length, struct table *t) {
    static struct verdict v;
    read_table(f, length, &v);
    *t = v.table;
}

void oracle_relayed(const uint8_t *f, size_t length, uint32_t relay, struct verdict *v) {
    read_table(f, length, v);
    if (v->table.rings == 2) { refuse(v, 2, 0); return; }
    if (v->number) return;
    const struct table given = v->table;
    struct table *t = &v->table;
    if (relay < 1 || relay > given.elements) { refuse(v, 27, 0); return; }
    t->rows = 0;
    for (unsigned i = 0; i < given.rows; i++) {
        unsigned parts = goes_through(&given, i, relay) ? 2 : 1;
        if (t->rows + parts > MAX_ROWS) { refuse(v, 28, 0); return; }
        for (unsigned part = 0; part < parts; part++) {
            struct row *r = &t->row[t->rows++];
            *r = given.row[i];
            if (part) r->first = relay;
            else if (parts == 2) r->second = relay;
        }
    }
    judge_table(v);
    if (v->number == 10) {
        fprintf(stderr, "oracle: a table split at a relay has no cut\n");
        exit(1);
    }
}

/* Follows the data of one row through the relay, slot by slot: which job it is of, whether that job is stored whole when it leaves, and
 * that it leaves in the period after its own. Returns how many jobs are there at most, or 0 where something is amiss. */
static unsigned follow(const struct row *r, const uint64_t *plan, unsigned hyper, unsigned half, const char **why) {
    unsigned long come = 0, gone = 0;
    unsigned most = 0;
    for (unsigned s = 0; s < 3 * hyper + 3 * r->period; s++) {
        uint64_t word = plan[s % hyper];
        unsigned long stored = come / r->cost;
        if (has(word, half)) {
            if (come / r->cost != s / r->period) { *why = "a job comes to the relay outside its period"; return 0; }
            come++;
        }
        unsigned there = (unsigned)((come + r->cost - 1) / r->cost - gone / r->cost);
        if (there > most) most = there;
        if (has(word, half + 1) && s >= r->period) {
            if (gone / r->cost >= stored) { *why = "a job leaves the relay before it is stored whole"; return 0; }
            if (gone / r->cost + 1 != s / r->period) { *why = "a job leaves the relay outside the period after its own"; return 0; }
            gone++;
        }
    }
    return most;
}

unsigned oracle_held(const struct table *given, uint32_t relay, const uint64_t *plan, unsigned hyper, const char **why) {
    unsigned most = 1, part = 0;
    for (unsigned i = 0; i < given->rows; i++) {
        int two = goes_through(given, i, relay);
        if (two) {
            unsigned held = follow(&given->row[i], plan, hyper, part, why);
            if (!held) return 0;
            if (held > most) most = held;
        }
        part += two ? 2 : 1;
    }
    return most;
}

/* ---- two parties */

static int is_theirs(const struct row *r) {
    return r->label >= 32768;
}

struct fraction oracle_asked(const struct table *t, int theirs, unsigned segment) {
    struct fraction sum = {0, 1};
    for (unsigned i = 0; i < t->rows; i++)
        if (is_theirs(&t->row[i]) == theirs) sum.under = sum.under / gcd(sum.under, t->row[i].period) * t->row[i].period;
    for (unsigned i = 0; i < t->rows; i++)
        if (is_theirs(&t->row[i]) == theirs && segments(t, i) >> segment & 1) sum.over += sum.under / t->row[i].period * t->row[i].cost;
    return sum;
}

/* The lowest segment of which a party asks for more than its limit, or 0. */
static unsigned lowest_over(const struct table *t, int theirs, uint32_t limit) {
    for (unsigned s = 1; s <= t->elements; s++) {
        struct fraction asked = oracle_asked(t, theirs, s);
        if (1000 * asked.over > limit * asked.under) return s;
    }
    return 0;
}

struct answer oracle_one_ring(const struct verdict *v) {
    return v->table.rings == 2 ? (struct answer){2, 0} : (struct answer){v->number, v->place};
}

struct answer oracle_limited(const struct verdict *v, uint32_t ours, uint32_t theirs) {
    struct answer without = oracle_one_ring(v);
    if (ours > 1000 || theirs > 1000) return (struct answer){23, 0};
    if (without.number && without.number != 13 && without.number != 14) return without;
    unsigned our = lowest_over(&v->table, 0, ours), their = lowest_over(&v->table, 1, theirs);
    if (our) return (struct answer){21, our};
    if (their) return (struct answer){22, their};
    return without;
}

/* ---- one interval */

/* x / h rounded down is n, or rounded up is n; x may be below zero */
static int rounds_to(int64_t x, int64_t h, int64_t n) {
    return n * h > x - h && n * h < x + h;
}

static int64_t lag(const struct verdict *v, unsigned i, unsigned k, const uint64_t *had) {
    const struct row *r = &v->table.row[i];
    return (int64_t)(v->hyper / r->period) * r->cost * v->end[k] - (int64_t)had[i] * v->hyper;
}

static int qualify(const struct verdict *v, unsigned k, const uint64_t *had, const uint64_t *load, unsigned decided) {
    int64_t h = v->hyper;
    for (unsigned s = 0; s < v->sets; s++) {
        int64_t sum = 0, lags = 0, open = 0;
        for (unsigned i = 0; i < v->table.rows; i++) {
            if (!has(v->set[s], i)) continue;
            lags += lag(v, i, k, had);
            if (i < decided) sum += (int64_t)load[i];
            else open = 1;
        }
        if (sum > length_of(v, k)) return 0;
        if (!open && !rounds_to(lags, h, sum)) return 0;
    }
    return 1;
}

static int choose(const struct verdict *v, unsigned k, const uint64_t *had, uint64_t *load, unsigned i) {
    if (i == v->table.rows) return 1;
    int64_t h = v->hyper, y = lag(v, i, k, had), n = y / h + 1;
    for (; n >= 0 && n * h > y - h; n--) {
        if (!rounds_to(y, h, n)) continue;
        load[i] = (uint64_t)n;
        if (qualify(v, k, had, load, i + 1) && choose(v, k, had, load, i + 1)) return 1;
    }
    return 0;
}

int oracle_loads(const struct verdict *v, unsigned k, const uint64_t *had, uint64_t *load) {
    return choose(v, k, had, load, 0);
}

void oracle_words(const struct verdict *v, unsigned k, const uint64_t *load, uint64_t *word) {
    const struct table *t = &v->table;
    unsigned length = length_of(v, k);
    memset(word, 0, length * sizeof *word);
    for (unsigned element = 1; element <= t->elements; element++)
        for (unsigned i = 0; i < t->rows; i++) {
            if (line_first(v, i) != element) continue;
            uint64_t left = load[i];
            for (unsigned s = 0; s < length && left; s++) {
                int free = 1;
                for (unsigned j = 0; j < t->rows; j++)
                    if (has(word[s], j) && oracle_overlap(t, i, j)) free = 0;
                if (free) word[s] |= (uint64_t)1 << i, left--;
            }
        }
}

/* ---- the promises */

int oracle_keeps(const struct verdict *v, const uint64_t *plan, const char **why) {
    const struct table *t = &v->table;
    unsigned h = v->hyper;
    uint64_t had[MAX_ROWS] = {0};
    for (unsigned s = 0; s < h; s++) {
        if (t->rows < 64 && plan[s] >> t->rows) { *why = "a bit past the last row"; return 0; }
        for (unsigned i = 0; i < t->rows; i++)
            for (unsigned j = 0; j < i; j++)
                if (has(plan[s], i) && has(plan[s], j) && oracle_overlap(t, i, j)) { *why = "overlapping rows in one slot"; return 0; }
    }
    for (unsigned k = 0; k < v->intervals; k++) {
        uint64_t load[MAX_ROWS] = {0}, word[MAX_SLOTS];
        const uint64_t *part = plan + oracle_start(v, k);
        for (unsigned s = 0; s < length_of(v, k); s++)
            for (unsigned i = 0; i < t->rows; i++) load[i] += (uint64_t)has(part[s], i);
        for (unsigned i = 0; i < t->rows; i++)
            if (!rounds_to(lag(v, i, k, had), h, (int64_t)load[i])) { *why = "a row's share at an interval's end"; return 0; }
        if (!qualify(v, k, had, load, t->rows)) { *why = "a set's share at an interval's end"; return 0; }
        oracle_words(v, k, load, word);
        if (memcmp(word, part, length_of(v, k) * sizeof *word)) { *why = "not the earliest free slots"; return 0; }
        for (unsigned i = 0; i < t->rows; i++) had[i] += load[i];
    }
    /* with the plan repeated, every job of two hyperperiods */
    for (unsigned i = 0; i < t->rows; i++)
        for (unsigned arrival = 0; arrival < 2 * h; arrival += t->row[i].period) {
            unsigned got = 0;
            for (unsigned s = arrival; s < arrival + t->row[i].period; s++) got += (unsigned)has(plan[s % h], i);
            if (got != t->row[i].cost) { *why = "a job's cost between arrival and deadline"; return 0; }
        }
    return 1;
}

/* ---- light rows raised */

unsigned oracle_raised(const struct verdict *v, unsigned i) {
    struct row tried = v->table.row[i];
    int equal = 1;
    for (unsigned j = 0; j < v->table.rows; j++) equal &= v->table.row[j].period == tried.period;
    while (light(&tried, v->interval, equal)) tried.cost++;
    return tried.cost;
}

int oracle_arrives(const struct verdict *v, const uint64_t *plan, unsigned i, unsigned data) {
    unsigned h = v->hyper, period = v->table.row[i].period;
    for (unsigned arrival = 0; arrival < 2 * h; arrival += period) {
        unsigned left = data;
        for (unsigned slot = arrival; left && slot < arrival + period; slot++) left -= (unsigned)has(plan[slot % h], i);
        if (left) return 0;
    }
    return 1;
}
