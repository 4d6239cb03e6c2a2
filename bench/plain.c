#include "plain.h"

#include <string.h>

enum { ROWS = 64, SLOTS = 4096, LINE = 34, ARCS = 2 * ROWS, PLACES = ROWS + 1, RINGS = 2 };

struct analysis {
    int rings, rows, elements, cut[RINGS], sets; /* a cut is the ring's number; 0 where there is none */
    int64_t hyper, interval, largest;
    int periods, distinct[ROWS]; /* the different periods */
    int cost[ROWS], period[ROWS], from[ROWS], to[ROWS], label[ROWS]; /* ends in the numbers of the row's ring */
    int way[ROWS]; /* 0 clockwise, 1 counterclockwise */
    int first[ROWS], second[ROWS]; /* on the line; the second ring's follows the first's */
    uint64_t word[ROWS];
    int low[ROWS], high[ROWS]; /* the sets that a row belongs to */
    int64_t rate[ROWS];
};

static int64_t gcd(int64_t a, int64_t b) {
    while (b) {
        int64_t r = a % b;
        a = b;
        b = r;
    }
    return a;
}

static uint32_t refuse(unsigned number, unsigned place) {
    return 256 * number + place;
}

static int steps(int elements, int from, int to) {
    return from <= to ? to - from : to + elements - from;
}

/* A number of the board as the ring's own, or back: the second ring's are mirrored. */
static int mirror(const struct analysis *a, int way, int e) {
    return way ? a->elements + 1 - e : e;
}

static int find_cut(const struct analysis *a, int way) {
    for (int e = 1; e <= a->elements; e++) {
        int i = 0;
        for (; i < a->rows; i++) {
            if (a->way[i] != way) continue;
            int on = steps(a->elements, a->from[i], e);
            if (0 < on && on < steps(a->elements, a->from[i], a->to[i])) break;
        }
        if (i == a->rows) return e;
    }
    return 0;
}

static void list_sets(struct analysis *a) {
    int started = 0;
    a->sets = 0;
    for (int e = 1; e <= a->rings * (a->elements + 1); e++) {
        int starts = 0, ends = 0;
        uint64_t across = 0;
        for (int i = 0; i < a->rows; i++) {
            starts |= a->first[i] == e;
            ends |= a->second[i] == e;
            if (a->first[i] < e && e <= a->second[i]) across |= (uint64_t)1 << i;
        }
        if (ends) {
            if (started) {
                for (int i = 0; i < a->rows; i++) {
                    if (!(across >> i & 1)) continue;
                    if (a->low[i] < 0) a->low[i] = a->sets;
                    a->high[i] = a->sets;
                }
                a->word[a->sets++] = across;
            }
            started = 0;
        }
        if (starts) started = 1;
    }
}

/* The different periods, and L: the least greatest common divisor of any two, or the one period that there is. */
static void cut_time(struct analysis *a) {
    a->periods = 0;
    a->interval = a->period[0];
    for (int i = 0; i < a->rows; i++) {
        int k = 0;
        while (k < a->periods && a->distinct[k] != a->period[i]) k++;
        if (k < a->periods) continue;
        for (k = 0; k < a->periods; k++) {
            int64_t d = gcd(a->period[i], a->distinct[k]);
            if (d < a->interval) a->interval = d;
        }
        a->distinct[a->periods++] = a->period[i];
    }
}

/* 1 to 9, 26 and 18 */
static uint32_t decode(const uint8_t *f, size_t length, struct analysis *a) {
    if (length < 7) return refuse(1, 0);
    if (f[0] != 'R' || f[1] != 'B' || (f[2] != 'T' && f[2] != '2')) return refuse(2, 0);
    a->rings = f[2] == '2' ? 2 : 1;
    if ((f[3] != 1 && (f[3] != 2 || a->rings == 2)) || f[4] != 0) return refuse(3, 0);
    size_t size = a->rings == 2 ? 7 : f[3] == 2 ? 8 : 6;
    a->elements = f[5];
    a->rows = f[6];
    if (a->elements < 2 || a->elements > 32) return refuse(4, 0);
    if (a->rows < 1 || a->rows > ROWS) return refuse(5, 0);
    if (length != 7 + size * (size_t)a->rows) return refuse(6, 0);
    for (int i = 0; i < a->rows; i++) {
        const uint8_t *r = f + 7 + size * (size_t)i;
        a->cost[i] = r[0] + 256 * r[1];
        a->period[i] = r[2] + 256 * r[3];
        a->from[i] = r[4];
        a->to[i] = r[5];
        a->label[i] = size == 8 ? r[6] + 256 * r[7] : 0;
        a->way[i] = size == 7 ? r[6] : 0;
        if (a->from[i] < 1 || a->from[i] > a->elements || a->to[i] < 1 || a->to[i] > a->elements || a->from[i] == a->to[i])
            return refuse(7, (unsigned)i);
        if (a->period[i] < 1 || a->period[i] > SLOTS) return refuse(8, (unsigned)i);
        if (a->cost[i] < 1 || a->cost[i] > a->period[i]) return refuse(9, (unsigned)i);
        if (a->way[i] > 1) return refuse(26, (unsigned)i);
        a->from[i] = mirror(a, a->way[i], a->from[i]);
        a->to[i] = mirror(a, a->way[i], a->to[i]);
    }
    for (int i = 1; i < a->rows; i++)
        for (int j = 0; j < i; j++)
            if (a->from[i] == a->from[j] && a->to[i] == a->to[j] && a->period[i] == a->period[j] && a->way[i] == a->way[j])
                return refuse(18, (unsigned)i);
    return 0;
}

/* 10 to 14 */
static uint32_t judge(struct analysis *a) {
    for (int way = 0; way < a->rings; way++) {
        a->cut[way] = find_cut(a, way);
        if (!a->cut[way]) return refuse(10, (unsigned)way);
    }
    a->hyper = 1;
    int equal = 1;
    for (int i = 0; i < a->rows; i++) {
        a->hyper = a->hyper / gcd(a->hyper, a->period[i]) * a->period[i];
        if (a->hyper > SLOTS) return refuse(11, 0);
        equal &= a->period[i] == a->period[0];
        int cut = a->cut[a->way[i]], start = a->way[i] * (a->elements + 1);
        a->first[i] = start + steps(a->elements, cut, a->from[i]) + 1;
        a->second[i] = start + (a->to[i] == cut ? a->elements : steps(a->elements, cut, a->to[i])) + 1;
        a->low[i] = -1;
    }
    cut_time(a);
    list_sets(a);
    for (int i = 0; i < a->rows; i++) {
        if (!equal && a->cost[i] * a->interval < a->period[i]) return refuse(13, (unsigned)i);
        a->rate[i] = a->hyper / a->period[i] * a->cost[i];
    }
    a->largest = 0;
    for (int k = 0; k < a->sets; k++) {
        int64_t load = 0;
        for (int i = 0; i < a->rows; i++)
            if (a->word[k] >> i & 1) load += a->rate[i];
        if (load > a->largest) a->largest = load;
        if (equal ? load > a->hyper : load * a->interval > (a->interval - 1) * a->hyper) return refuse(14, (unsigned)k);
    }
    return 0;
}

static uint32_t analyse(const uint8_t *f, size_t length, struct analysis *a) {
    uint32_t answer = decode(f, length, a);
    return answer ? answer : judge(a);
}

/* ---- loads: rows and sets are arcs of a circulation between the sets; each row in turn is raised as far as the others allow */

struct net {
    int arcs, rows, places;
    int tail[ARCS], head[ARCS];
    int64_t flow[ARCS], least[ARCS], most[ARCS];
};

/* Finds a way from `from` to `to` by arcs after `row` that can take more, and pushes what it can along it and row's own arc. */
static int raise_once(struct net *n, int row) {
    int queue[PLACES], reached[PLACES] = {0}, by[PLACES];
    int64_t spare[PLACES];
    int from = n->head[row], to = n->tail[row], count = 0;
    queue[count++] = from;
    reached[from] = 1;
    by[from] = -1;
    spare[from] = n->most[row] - n->flow[row];
    for (int at = 0; at < count && !reached[to]; at++) {
        int v = queue[at];
        for (int e = row + 1; e < n->arcs; e++) {
            int w;
            int64_t room;
            if (n->tail[e] == v) w = n->head[e], room = n->most[e] - n->flow[e];
            else if (n->head[e] == v) w = n->tail[e], room = n->flow[e] - n->least[e];
            else continue;
            if (reached[w] || room <= 0) continue;
            reached[w] = 1;
            by[w] = e;
            spare[w] = room < spare[v] ? room : spare[v];
            queue[count++] = w;
        }
    }
    if (!reached[to]) return 0;
    int64_t push = spare[to];
    for (int v = to; v != from;) {
        int e = by[v];
        if (n->head[e] == v) n->flow[e] += push, v = n->tail[e];
        else n->flow[e] -= push, v = n->head[e];
    }
    n->flow[row] += push;
    return 1;
}

static void choose_loads(const struct analysis *a, struct net *n, int64_t end, const int64_t *had, int64_t *load) {
    int64_t h = a->hyper;
    for (int k = 0; k < a->sets; k++) n->flow[n->rows + k] = 0;
    for (int i = 0; i < n->rows; i++) {
        int64_t lag = a->rate[i] * end - had[i] * h, down = lag / h * h;
        n->flow[i] = lag;
        n->least[i] = down;
        n->most[i] = lag == down ? down : down + h;
        for (int k = a->low[i]; k <= a->high[i]; k++) n->flow[n->rows + k] += lag;
    }
    for (int k = 0; k < a->sets; k++) {
        int64_t lag = n->flow[n->rows + k], down = lag / h * h;
        n->least[n->rows + k] = down;
        n->most[n->rows + k] = lag == down ? down : down + h;
    }
    for (int i = 0; i < n->rows; i++)
        while (n->flow[i] < n->most[i] && raise_once(n, i)) {}
    for (int i = 0; i < n->rows; i++) load[i] = n->flow[i] / h;
}

/* ---- slots */

static void fill_slots(const struct analysis *a, int l, const int64_t *load, uint64_t *out) {
    int last[SLOTS];
    memset(out, 0, (size_t)l * sizeof *out);
    memset(last, 0, (size_t)l * sizeof *last);
    for (int e = 1; e <= a->rings * (a->elements + 1); e++)
        for (int i = 0; i < a->rows; i++) {
            if (a->first[i] != e) continue;
            int64_t left = load[i];
            for (int s = 0; s < l && left; s++)
                if (last[s] <= e) {
                    out[s] |= (uint64_t)1 << i;
                    last[s] = a->second[i];
                    left--;
                }
        }
}

uint32_t plain_verdict(const uint8_t *file, size_t length) {
    struct analysis a;
    return analyse(file, length, &a);
}

/* The cut as the board's own number: 1 where the ring has no rows, 0 where there is no such ring. */
static uint32_t board_cut(const struct analysis *a, int way) {
    if (way >= a->rings) return 0;
    for (int i = 0; i < a->rows; i++)
        if (a->way[i] == way) return (uint32_t)mirror(a, way, a->cut[way]);
    return 1;
}

uint32_t plain_values(const uint8_t *file, size_t length, uint32_t *values, size_t room) {
    struct analysis a;
    uint32_t answer = analyse(file, length, &a);
    if (answer) return answer;
    if (room < 6) return refuse(17, 0);
    values[0] = board_cut(&a, 0);
    values[1] = board_cut(&a, 1);
    values[2] = (uint32_t)a.interval;
    values[3] = (uint32_t)a.hyper;
    values[4] = (uint32_t)((1000 * a.largest + a.hyper - 1) / a.hyper);
    values[5] = (uint32_t)a.sets;
    return 0;
}

/* The segments from element to element, bit s - 1 for the board's segment s. The ring's segment e of the second ring begins, clockwise, at
 * the element where it ends. */
static uint32_t route(const struct analysis *a, size_t i) {
    uint32_t word = 0;
    for (int e = a->from[i]; e != a->to[i]; e = e % a->elements + 1) {
        int s = a->way[i] ? mirror(a, 1, e % a->elements + 1) : e;
        word |= (uint32_t)1 << (s - 1);
    }
    return word;
}

uint32_t plain_shared(const uint8_t *file, size_t length, size_t i, size_t j, uint32_t *word) {
    struct analysis a;
    uint32_t answer = analyse(file, length, &a);
    /* 10 and what comes after it, 18 too, say nothing of a row's route */
    if (answer && (answer / 256 < 10 || answer / 256 == 26)) return answer;
    if (i >= (size_t)a.rows) return refuse(32, 0);
    if (j >= (size_t)a.rows) return refuse(32, 1);
    *word = a.way[i] == a.way[j] ? route(&a, i) & route(&a, j) : 0;
    return 0;
}

/* Whether a word of a plan has rows that overlap, or a bit past the last row. */
static int bad_word(const struct analysis *a, const uint32_t *routes, uint64_t word) {
    uint32_t used = 0;
    for (; word; word &= word - 1) {
        int i = __builtin_ctzll(word);
        if (i >= a->rows || (used & routes[i])) return 1;
        used |= routes[i];
    }
    return 0;
}

/* The verdict of calls that take tables of one ring alone: where there is a mark it is RBT. */
static uint32_t analyse_one_ring(const uint8_t *f, size_t length, struct analysis *a) {
    return length >= 7 && f[2] != 'T' ? refuse(2, 0) : analyse(f, length, a);
}

uint64_t plain_element_list(const uint8_t *file, size_t length, const uint64_t *plan, size_t words, uint32_t element, uint8_t *list,
                            size_t room) {
    struct analysis a;
    uint32_t answer = analyse_one_ring(file, length, &a), routes[ROWS];
    if (answer) return (uint64_t)(answer / 256) << 32 | answer % 256;
    if (element < 1 || element > (uint32_t)a.elements) return (uint64_t)29 << 32;
    uint64_t into = 0, from = 0;
    for (int i = 0; i < a.rows; i++) {
        routes[i] = route(&a, (size_t)i);
        into |= (uint64_t)((uint32_t)a.to[i] == element) << i;
        from |= (uint64_t)((uint32_t)a.from[i] == element) << i;
    }
    size_t size = 8, hyper = (size_t)a.hyper;
    for (size_t s = 0; s < hyper && s < words; s++) {
        if (bad_word(&a, routes, plan[s])) return (uint64_t)19 << 32 | s;
        size += 4 * (size_t)(((plan[s] & into) != 0) + ((plan[s] & from) != 0));
    }
    if (words < hyper || room < size) return (uint64_t)17 << 32;
    const uint8_t head[] = {'R', 'B', 'E', 1, 0, (uint8_t)element, (uint8_t)hyper, (uint8_t)(hyper >> 8)};
    memcpy(list, head, sizeof head);
    uint8_t *at = list + sizeof head;
    for (size_t s = 0; s < hyper; s++)
        for (int way = 0; way < 2; way++) {
            uint64_t moves = plan[s] & (way ? from : into);
            if (!moves) continue;
            *at++ = (uint8_t)s;
            *at++ = (uint8_t)(s >> 8);
            *at++ = (uint8_t)__builtin_ctzll(moves);
            *at++ = (uint8_t)way;
        }
    return size;
}

uint32_t plain_sets(const uint8_t *file, size_t length, uint64_t *sets, size_t room) {
    struct analysis a;
    uint32_t answer = analyse(file, length, &a);
    /* 13 and 14 come after the list */
    if (answer && answer / 256 != 13 && answer / 256 != 14) return answer;
    if (room < (size_t)a.sets) return refuse(17, 0);
    memcpy(sets, a.word, (size_t)a.sets * sizeof *sets);
    return 0;
}

/* The whole plan of an admitted table. */
static uint32_t plan_of(const struct analysis *a, uint64_t *plan, size_t words) {
    struct net n;
    if (words < (size_t)a->hyper) return refuse(17, 0);
    n.rows = a->rows;
    n.arcs = a->rows + a->sets;
    n.places = a->sets + 1;
    for (int i = 0; i < a->rows; i++) n.tail[i] = a->low[i], n.head[i] = a->high[i] + 1;
    for (int k = 0; k < a->sets; k++) n.tail[a->rows + k] = k + 1, n.head[a->rows + k] = k;
    int64_t had[ROWS] = {0}, load[ROWS];
    int multiple[ROWS]; /* of each different period, the next past the slot reached */
    for (int k = 0; k < a->periods; k++) multiple[k] = a->distinct[k];
    for (int at = 0, end; at < a->hyper; at = end) {
        end = multiple[0];
        for (int k = 1; k < a->periods; k++)
            if (multiple[k] < end) end = multiple[k];
        for (int k = 0; k < a->periods; k++)
            if (multiple[k] == end) multiple[k] += a->distinct[k];
        choose_loads(a, &n, end, had, load);
        fill_slots(a, end - at, load, plan + at);
        for (int i = 0; i < a->rows; i++) had[i] += load[i];
    }
    return 0;
}

uint32_t plain_plan(const uint8_t *file, size_t length, uint64_t *plan, size_t words) {
    struct analysis a;
    uint32_t answer = analyse(file, length, &a);
    return answer ? answer : plan_of(&a, plan, words);
}

/* ---- two parties: rows with a label below 32,768 are ours, the others the second maker's */

/* The lowest segment of which a party's rows ask for more than its limit, or 0; sums are over the h of all rows. */
static unsigned over_limit(const struct analysis *a, int theirs, uint32_t limit) {
    int64_t asked[LINE] = {0};
    for (int i = 0; i < a->rows; i++) {
        if ((a->label[i] >= 32768) != theirs) continue;
        for (int s = a->from[i]; s != a->to[i]; s = s % a->elements + 1) asked[s] += a->hyper / a->period[i] * a->cost[i];
    }
    for (int s = 1; s <= a->elements; s++)
        if (1000 * asked[s] > limit * a->hyper) return (unsigned)s;
    return 0;
}

uint32_t plain_verdict_limited(const uint8_t *file, size_t length, uint32_t ours, uint32_t theirs) {
    struct analysis a;
    if (ours > 1000 || theirs > 1000) return refuse(23, 0);
    uint32_t answer = analyse_one_ring(file, length, &a);
    /* 13 and 14 come after 21 and 22 */
    if (answer && answer / 256 != 13 && answer / 256 != 14) return answer;
    unsigned our = over_limit(&a, 0, ours), their = over_limit(&a, 1, theirs);
    if (our) return refuse(21, our);
    if (their) return refuse(22, their);
    return answer;
}

uint32_t plain_plan_limited(const uint8_t *file, size_t length, uint32_t ours, uint32_t theirs, uint64_t *plan, size_t words) {
    uint32_t answer = plain_verdict_limited(file, length, ours, theirs);
    return answer ? answer : plain_plan(file, length, plan, words);
}

/* ---- light rows raised to the least cost that passes */

uint32_t plain_raise(const uint8_t *file, size_t length, uint8_t *out, size_t room) {
    struct analysis a;
    uint32_t answer = analyse_one_ring(file, length, &a);
    /* 13 and 14 come after all that raising asks of a table */
    if (answer && answer / 256 != 13 && answer / 256 != 14) return answer;
    if (room < length) return refuse(17, 0);
    memcpy(out, file, length);
    size_t size = (length - 7) / (size_t)a.rows;
    for (int i = 0; i < a.rows; i++) {
        /* where all periods are equal L is as long, and the least is 1 */
        int64_t least = (a.period[i] + a.interval - 1) / a.interval;
        uint8_t *r = out + 7 + size * (size_t)i;
        if (a.cost[i] < least) r[0] = (uint8_t)(least % 256), r[1] = (uint8_t)(least / 256);
    }
    return 0;
}

/* ---- a relay */

/* Puts a row at the end, with these two ends. */
static void put_row(struct analysis *a, const struct analysis *given, int i, int from, int to) {
    int k = a->rows++;
    a->cost[k] = given->cost[i];
    a->period[k] = given->period[i];
    a->way[k] = 0;
    a->from[k] = from;
    a->to[k] = to;
}

/* The table with each row through the relay parted in two, and its verdict. */
static uint32_t analyse_relayed(const uint8_t *f, size_t length, uint32_t relay, struct analysis *a) {
    struct analysis given;
    if (length >= 7 && f[2] != 'T') return refuse(2, 0);
    uint32_t answer = decode(f, length, &given);
    if (answer) return answer;
    if (relay < 1 || relay > (uint32_t)given.elements) return refuse(27, 0);
    int through[ROWS], rows = given.rows, e = (int)relay;
    for (int i = 0; i < given.rows; i++) {
        int on = steps(given.elements, given.from[i], e);
        through[i] = 0 < on && on < steps(given.elements, given.from[i], given.to[i]);
        rows += through[i];
    }
    if (rows > ROWS) return refuse(28, 0);
    a->rings = 1;
    a->elements = given.elements;
    a->rows = 0;
    for (int i = 0; i < given.rows; i++) {
        put_row(a, &given, i, given.from[i], through[i] ? e : given.to[i]);
        if (through[i]) put_row(a, &given, i, e, given.to[i]);
    }
    return judge(a);
}

uint32_t plain_verdict_relayed(const uint8_t *file, size_t length, uint32_t relay) {
    struct analysis a;
    return analyse_relayed(file, length, relay, &a);
}

uint32_t plain_plan_relayed(const uint8_t *file, size_t length, uint32_t relay, uint64_t *plan, size_t words) {
    struct analysis a;
    uint32_t answer = analyse_relayed(file, length, relay, &a);
    return answer ? answer : plan_of(&a, plan, words);
}
