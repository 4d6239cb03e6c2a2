/* C with the library's own algorithms, as quick as we can write it: what the proofs cost in time is measured against it.
 *
 * Verdict: one pass over the rows as they stand in the file, one over the rows on the line, one over the line's elements. Loads: which rows
 * are rounded up is one word; a greedy choice first, and where that leaves a set too low, rows are exchanged by a search over words. Slots:
 * neighbouring slots that hold the same rows are one stretch. No heap, no recursion, no vector code. */
#include "plain.h"

#include <string.h>

/* a ring has no more sets than elements; the line of both rings has the second's elements after the first's */
enum { ROWS = 64, ELEMENTS = 32, RINGS = 2, SLOTS = 4096, SETS = ELEMENTS, NODES = SETS + 1, LINE = RINGS * (ELEMENTS + 1) + 1 };

typedef uint32_t u32;
typedef uint64_t u64;

struct line {
    u32 rings, rows, elements, sets[RINGS], hyper, interval, largest;
    u64 upper; /* the rows of the second ring */
    u32 leading, period[ROWS]; /* the periods that are no multiple of an earlier row's */
    u32 rate[ROWS]; /* load in units of 1 / h */
    uint8_t first[ROWS], second[ROWS];
    uint8_t closed[LINE]; /* sets of an element's own ring that are closed at or before it */
};

static inline u64 bit(u32 n) {
    return (u64)1 << n;
}

static inline u32 lowest(u64 word) {
    return (u32)__builtin_ctzll(word);
}

static inline u32 refuse(u32 number, u32 place) {
    return 256 * number + place;
}

static u32 gcd(u32 a, u32 b) {
    while (b) {
        u32 r = a % b;
        a = b;
        b = r;
    }
    return a;
}

/* ---- verdict */

/* A period more: it leads where it is no multiple of one that does, and then L comes down to what it has in common with each. */
static inline void lead(struct line *t, u32 period) {
    for (u32 k = 0; k < t->leading; k++)
        if (period % t->period[k] == 0) return;
    if (period < t->interval) t->interval = period;
    for (u32 k = 0; k < t->leading; k++) {
        u32 common = gcd(period, t->period[k]);
        if (common < t->interval) t->interval = common;
    }
    t->period[t->leading++] = period;
}

/* The least common multiple of h and a period; it stays where it is above 4096. */
static inline u32 raised(u32 hyper, u32 period) {
    if (hyper == 1) return period;
    if (hyper > SLOTS || hyper % period == 0) return hyper;
    return hyper / gcd(period, hyper % period) * period;
}

/* Compiled once for each number of rings: one ring alone is not asked for a direction. */
static inline __attribute__((always_inline)) u32 analyse_rings(const uint8_t *file, size_t length, struct line *t, const u32 rings) {
    u32 elements = file[5], rows = file[6];
    if ((file[3] != 1 && (file[3] != 2 || rings == 2)) || file[4] != 0) return refuse(3, 0);
    size_t size = rings == 2 ? 7 : file[3] == 2 ? 8 : 6;
    if (elements - 2 > ELEMENTS - 2) return refuse(4, 0);
    if (rows - 1 > ROWS - 1) return refuse(5, 0);
    if (length != 7 + size * (size_t)rows) return refuse(6, 0);

    /* the rows as they stand: faults, earlier rows with the same ends and period, elements gone through, hyperperiod and
     * leading periods */
    u64 through[RINGS] = {0}, upper = 0, leaving[ELEMENTS + 1] = {0}, arriving[ELEMENTS + 1] = {0};
    u32 hyper = 1, pasted = ROWS;
    uint16_t met[ROWS] = {0}; /* periods met, each at a place of its own or of few: most tables have few periods */
    t->leading = 0;
    t->interval = SLOTS;
    const uint8_t *row = file + 7;
    for (u32 i = 0; i < rows; i++, row += size) {
        u32 cost = row[0] + 256u * row[1], period = row[2] + 256u * row[3], from = row[4], to = row[5];
        if (from - 1 >= elements || to - 1 >= elements || from == to) return refuse(7, i);
        if (period - 1 >= SLOTS) return refuse(8, i);
        if (cost - 1 >= period) return refuse(9, i);
        u32 way = rings == 2 ? row[6] : 0;
        if (way >= RINGS) return refuse(26, i);
        u64 other_way = rings == 1 ? 0 : way ? ~upper : upper;
        for (u64 alike = leaving[from] & arriving[to] & ~other_way; alike && pasted == ROWS; alike &= alike - 1) {
            const uint8_t *other = file + 7 + size * lowest(alike);
            if (other[2] == row[2] && other[3] == row[3]) pasted = i;
        }
        leaving[from] |= bit(i);
        arriving[to] |= bit(i);
        upper |= (u64)way << i;
        if (way) from = elements + 1 - from, to = elements + 1 - to;
        u32 steps = from < to ? to - from : to + elements - from;
        through[way] |= (bit(steps - 1) - 1) << from;
        if (met[(period + period / 64) % 64] != period) {
            met[(period + period / 64) % 64] = (uint16_t)period;
            lead(t, period);
            hyper = raised(hyper, period);
        }
    }
    if (pasted < ROWS) return refuse(18, pasted);
    u32 cut[RINGS] = {1, 1};
    for (u32 d = 0; d < rings; d++) {
        u64 clear = ~(through[d] | through[d] >> elements) & (bit(elements) - 1);
        if (!clear) return refuse(10, d);
        cut[d] = lowest(clear) + 1;
    }
    if (hyper > SLOTS) return refuse(11, 0);

    /* the rows on the line: light rows, and where loads begin and end */
    u32 per_slot = 0, interval = t->interval;
    int32_t change[LINE] = {0};
    u64 starts[RINGS] = {0}, ends[RINGS] = {0};
    u32 last = 0;
    row = file + 7;
    for (u32 i = 0; i < rows; i++, row += size) {
        u32 cost = row[0] + 256u * row[1], period = row[2] + 256u * row[3], from = row[4], to = row[5];
        if (period != last) last = period, per_slot = hyper / period;
        if (interval != hyper && cost * interval < period) return refuse(13, i);
        u32 way = rings == 2 ? upper >> i & 1 : 0, base = way ? elements + 1 : 0, at = cut[way];
        if (way) from = base - from, to = base - to;
        u32 rate = per_slot * cost, first = from >= at ? from - at + 1 : from + elements - at + 1;
        u32 second = to > at ? to - at + 1 : to + elements - at + 1;
        t->rate[i] = rate;
        t->first[i] = (uint8_t)(base + first);
        t->second[i] = (uint8_t)(base + second);
        change[base + first] += (int32_t)rate;
        change[base + second] -= (int32_t)rate;
        starts[way] |= bit(first);
        ends[way] |= bit(second);
    }

    /* the line: a set is closed where rows end and some row has started since rows last ended */
    u32 bound = interval == hyper ? hyper * interval : (interval - 1) * hyper, sets = 0, load = 0, largest = 0, over = ROWS;
    for (u32 d = 0, at = 1; d < rings; d++) {
        u32 before = sets;
        int started = 0;
        for (u32 e = 1; e <= elements + 1; e++, at++) {
            if (ends[d] >> e & 1) {
                if (started) {
                    if (load > largest) largest = load;
                    if (load * interval > bound && over == ROWS) over = sets;
                    sets++;
                }
                started = 0;
            }
            started |= (int)(starts[d] >> e & 1);
            load += (u32)change[at];
            t->closed[at] = (uint8_t)(sets - before);
        }
        t->sets[d] = sets - before;
    }
    if (over < ROWS) return refuse(14, over);
    t->rings = rings;
    t->rows = rows;
    t->elements = elements;
    t->upper = upper;
    t->hyper = hyper;
    t->largest = largest;
    return 0;
}

static inline u32 analyse(const uint8_t *file, size_t length, struct line *t) {
    if (length < 7) return refuse(1, 0);
    if (file[0] != 'R' || file[1] != 'B') return refuse(2, 0);
    if (file[2] == 'T') return analyse_rings(file, length, t, 1);
    if (file[2] == '2') return analyse_rings(file, length, t, 2);
    return refuse(2, 0);
}

uint32_t words_verdict(const uint8_t *file, size_t length) {
    struct line t;
    return analyse(file, length, &t);
}

/* ---- loads */

struct loads {
    u32 rows, sets[RINGS];
    int32_t hyper;
    u64 top, upper;                              /* the rows rounded up, those of the second ring */
    uint8_t from[ROWS], to[ROWS];                /* a row leads from node to node; set q lies between nodes q and q + 1 */
    u64 out[RINGS][NODES], into[RINGS][NODES];   /* the rows that lead from a node, and to it */
    int32_t whole[ROWS], part[ROWS], rest[ROWS]; /* a row's share of an interval, whole and rest; its share at the last end, its rest */
    int32_t room[SETS];                          /* what a set's rests leave when h is taken for each row rounded up */
    int32_t load[ROWS];
};

/* Looks on ring d for a way from node `from` to node `to` by rows of `free` and by sets, and takes it: rows on it are rounded the other
 * way. */
static int take_way(struct loads *n, u32 d, u32 from, u32 to, u64 free) {
    u64 seen = bit(from), open = seen, rows_by[NODES], sets_by[NODES];
    rows_by[from] = sets_by[from] = 0;
    while (open) {
        u32 v = lowest(open);
        open &= open - 1;
        u64 was = seen, rows = rows_by[v], sets = sets_by[v];
        if (v > 0 && n->room[v - 1] > 0 && !(seen >> (v - 1) & 1)) {
            seen |= bit(v - 1);
            rows_by[v - 1] = rows;
            sets_by[v - 1] = sets | bit(v - 1);
        }
        if (v < n->sets[d] && n->room[v] < 0 && !(seen >> (v + 1) & 1)) {
            seen |= bit(v + 1);
            rows_by[v + 1] = rows;
            sets_by[v + 1] = sets | bit(v);
        }
        for (u64 on = n->out[d][v] & free & ~n->top; on; on &= on - 1) {
            u32 i = lowest(on), w = n->to[i];
            if (seen >> w & 1) continue;
            seen |= bit(w);
            rows_by[w] = rows | bit(i);
            sets_by[w] = sets;
        }
        for (u64 on = n->into[d][v] & free & n->top; on; on &= on - 1) {
            u32 i = lowest(on), w = n->from[i];
            if (seen >> w & 1) continue;
            seen |= bit(w);
            rows_by[w] = rows | bit(i);
            sets_by[w] = sets;
        }
        if (seen >> to & 1) {
            n->top ^= rows_by[to];
            for (u64 on = sets_by[to]; on; on &= on - 1) {
                u32 q = lowest(on);
                n->room[q] += n->room[q] > 0 ? -n->hyper : n->hyper;
            }
            return 1;
        }
        open |= seen & ~was;
    }
    return 0;
}

unsigned long words_intervals, words_settled;

/* Greedy left some set too low: rows are exchanged until none is, then each row in turn is rounded up where later rows allow it. */
static void settle(struct loads *n, u32 d, u64 parted) {
    words_settled++;
    for (u32 q = 0; q < n->sets[d]; q++)
        while (n->room[q] >= n->hyper) {
            take_way(n, d, q, q + 1, parted);
            n->room[q] -= n->hyper;
        }
    u64 later = parted;
    for (u64 on = parted; on; on &= on - 1) {
        u32 i = lowest(on);
        later &= later - 1;
        if (!(n->top >> i & 1) && take_way(n, d, n->to[i], n->from[i], later)) n->top |= bit(i);
    }
}

/* The rows' shares of an interval of so many slots. */
static void take_slots(struct loads *n, const struct line *t, u32 slots) {
    for (u32 i = 0; i < n->rows; i++) {
        u32 share = t->rate[i] * slots;
        n->whole[i] = (int32_t)(share / t->hyper);
        n->part[i] = (int32_t)(share % t->hyper);
    }
}

/* Which rows of ring d are rounded up, of those with a part above whole slots: they are put in n->top. */
static inline void choose_on(struct loads *n, u32 d, const int32_t *sum, u64 parted) {
    int32_t h = n->hyper, room = 0, low = 0;
    u64 full = 0;
    for (u32 q = 0; q < n->sets[d]; q++) {
        room += sum[q];
        n->room[q] = room;
        full |= (u64)(room <= 0) << q;
    }
    for (u64 on = parted; on; on &= on - 1) {
        u32 i = lowest(on), a = n->from[i], b = n->to[i];
        if (full & (bit(b) - bit(a))) continue;
        n->top |= bit(i);
        for (u32 q = a; q < b; q++) {
            n->room[q] -= h;
            full |= (u64)(n->room[q] <= 0) << q;
        }
    }
    for (u32 q = 0; q < n->sets[d]; q++) low |= n->room[q] >= h;
    if (low) settle(n, d, parted);
}

/* The loads of the next interval: the greatest in row order, on each ring by itself. */
static inline void choose(struct loads *n, u32 rings) {
    int32_t h = n->hyper, sum[RINGS][NODES];
    u64 had = n->top, parted = 0;
    memset(sum, 0, rings * sizeof *sum);
    for (u32 i = 0; i < n->rows; i++) {
        int32_t rest = n->rest[i] + n->part[i], carry = rest >= h;
        u32 d = rings == 1 ? 0 : n->upper >> i & 1;
        rest -= carry ? h : 0;
        n->rest[i] = rest;
        n->load[i] = n->whole[i] + carry;
        parted |= (u64)(rest != 0) << i;
        sum[d][n->from[i]] += rest;
        sum[d][n->to[i]] -= rest;
    }
    n->top = 0;
    if (parted & ~n->upper) choose_on(n, 0, sum[0], parted & ~n->upper);
    if (rings == 2 && parted & n->upper) choose_on(n, 1, sum[1], parted & n->upper);
    for (u64 on = n->top & ~had; on; on &= on - 1) n->load[lowest(on)]++;
    for (u64 on = had & ~n->top; on; on &= on - 1) n->load[lowest(on)]--;
}

/* ---- slots */

/* The words of one interval: rows by first element and number, each in the earliest slots that are free on its way. */
static inline void fill(const struct line *t, u32 slots, const u64 *starts, const int32_t *load, u64 *out) {
    u64 word[ROWS + 1];
    u32 length[ROWS + 1];
    uint8_t end[ROWS + 1], next[ROWS + 1];
    u32 count = 1;
    word[0] = 0;
    length[0] = slots;
    end[0] = 0;
    next[0] = 0;
    for (u32 e = 1; e < t->rings * (t->elements + 1); e++) {
        u32 at = 0;
        for (u64 on = starts[e]; on; on &= on - 1) {
            u32 i = lowest(on), left = (u32)load[i];
            while (left) {
                while (end[at] > e) at = next[at];
                if (length[at] > left) {
                    word[count] = word[at];
                    length[count] = length[at] - left;
                    end[count] = end[at];
                    next[count] = next[at];
                    length[at] = left;
                    next[at] = (uint8_t)count++;
                }
                word[at] |= bit(i);
                end[at] = t->second[i];
                left -= length[at];
            }
        }
    }
    for (u32 at = 0, slot = 0;; at = next[at]) {
        u64 w = word[at];
        for (u32 stop = slot + length[at]; slot < stop; slot++) out[slot] = w;
        if (slot == slots) return;
    }
}

/* ---- the whole plan */

uint32_t words_plan(const uint8_t *file, size_t length, uint64_t *plan, size_t room) {
    struct line t;
    struct loads n;
    u32 answer = analyse(file, length, &t);
    if (answer) return answer;
    if (room < t.hyper) return refuse(17, 0);
    u64 starts[LINE] = {0};
    n.rows = t.rows;
    n.hyper = (int32_t)t.hyper;
    n.top = 0;
    n.upper = t.upper;
    for (u32 d = 0; d < t.rings; d++) {
        n.sets[d] = t.sets[d];
        memset(n.out[d], 0, (t.sets[d] + 1) * sizeof **n.out);
        memset(n.into[d], 0, (t.sets[d] + 1) * sizeof **n.into);
    }
    for (u32 i = 0; i < t.rows; i++) {
        u32 d = t.upper >> i & 1, from = t.closed[t.first[i]], to = t.closed[t.second[i]];
        n.from[i] = (uint8_t)from;
        n.to[i] = (uint8_t)to;
        n.out[d][from] |= bit(i);
        n.into[d][to] |= bit(i);
        n.rest[i] = 0;
        starts[t.first[i]] |= bit(i);
    }
    u32 multiple[ROWS]; /* of each leading period, the next past the slot reached */
    int even = 0;       /* L is one of them, so that all intervals are as long */
    for (u32 k = 0; k < t.leading; k++) multiple[k] = t.period[k], even |= t.period[k] == t.interval;
    for (u32 slot = 0, end, slots = 0; slot < t.hyper; slot = end) {
        if (even)
            end = slot + t.interval;
        else {
            end = multiple[0];
            for (u32 k = 1; k < t.leading; k++)
                if (multiple[k] < end) end = multiple[k];
            for (u32 k = 0; k < t.leading; k++) multiple[k] += multiple[k] == end ? t.period[k] : 0;
        }
        if (slots != end - slot) take_slots(&n, &t, slots = end - slot);
        if (t.rings == 1)
            choose(&n, 1);
        else
            choose(&n, 2);
        fill(&t, slots, starts, n.load, plan + slot);
        words_intervals++;
    }
    return 0;
}
