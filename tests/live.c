/* Compares the live table's calls with an independent implementation of #109.
 *
 *     live SESSIONS SEED
 *
 * The other one works everything out by other means: the least common multiple by trying every number, the load of a segment by walking
 * each route element by element. After every call the whole structs are compared byte by byte, and now and then the file of the rows
 * present, and the verdict on it with that of the independent implementation. Then live tables that are off in every way are handed in. */
#include "oracle.h"
#include "ringlive.h"
#include "ringplan.h"

#include <stdio.h>
#include <stdlib.h>
#include <string.h>

static uint64_t state;
static unsigned below(unsigned n) {
    state = state * 6364136223846793005u + 1442695040888963407u;
    return (unsigned)((state >> 33) % n);
}

static int fail(const char *what) {
    printf("differs: %s\n", what);
    return 1;
}

/* ---- the other one */

static unsigned common_multiple(const struct ring_live *l) {
    for (unsigned m = 1; m <= 4096; m++) {
        int all = 1;
        for (unsigned i = 0; i < RING_LIVE_PLACES && all; i++) all = l->period[i] == 0 || m % l->period[i] == 0;
        if (all) return m;
    }
    return 0;
}

static void work_out(struct ring_live *l) {
    l->denominator = common_multiple(l);
    memset(l->sums, 0, sizeof l->sums);
    for (unsigned i = 0; i < RING_LIVE_PLACES; i++) {
        if (l->period[i] == 0) continue;
        for (unsigned e = l->first[i]; e != l->second[i]; e = e == l->elements ? 1 : e + 1)
            l->sums[e - 1] += l->cost[i] * (l->denominator / l->period[i]);
    }
}

static uint32_t other_new(struct ring_live *l, size_t elements) {
    memset(l, 0, sizeof *l);
    if (elements < 2 || elements > 32) return 256 * 4;
    l->elements = elements;
    l->denominator = 1;
    return 0;
}

static uint32_t other_add(struct ring_live *l, unsigned cost, unsigned period, unsigned first, unsigned second, unsigned label) {
    unsigned place = RING_LIVE_PLACES;
    struct ring_live after = *l;
    if (first < 1 || first > l->elements || second < 1 || second > l->elements || first == second) return 256 * 7;
    if (period < 1 || period > 4096) return 256 * 8;
    if (cost < 1 || cost > period) return 256 * 9;
    for (unsigned i = RING_LIVE_PLACES; i-- > 0;) {
        if (l->period[i] == 0) place = i;
        else if (l->period[i] == period && l->first[i] == first && l->second[i] == second) return 256 * 18;
    }
    if (place == RING_LIVE_PLACES) return 256 * 24;
    after.cost[place] = (uint16_t)cost;
    after.period[place] = (uint16_t)period;
    after.first[place] = (uint8_t)first;
    after.second[place] = (uint8_t)second;
    after.label[place] = (uint16_t)label;
    if (common_multiple(&after) == 0) return 256 * 11;
    work_out(&after);
    *l = after;
    return place;
}

static uint32_t other_remove(struct ring_live *l, size_t place) {
    if (place >= RING_LIVE_PLACES || l->period[place] == 0) return 256 * 25;
    l->cost[place] = l->period[place] = l->label[place] = 0;
    l->first[place] = l->second[place] = 0;
    work_out(l);
    return 0;
}

/* The file of the rows present in a version; its answer. */
static uint32_t other_file(const struct ring_live *l, uint64_t version, uint8_t *file, size_t room) {
    uint8_t made[RING_FILE_BYTES] = {'R', 'B', 'T', (uint8_t)version, 0, (uint8_t)l->elements, 0};
    size_t n = 7;
    unsigned lost = RING_LIVE_PLACES;
    if (version != 1 && version != 2) return 256 * 3;
    for (unsigned i = 0; i < RING_LIVE_PLACES; i++) {
        const unsigned two[] = {l->cost[i], l->period[i]};
        if (l->period[i] == 0) continue;
        for (unsigned k = 0; k < 2; k++) made[n++] = (uint8_t)(two[k] & 255), made[n++] = (uint8_t)(two[k] >> 8);
        made[n++] = l->first[i], made[n++] = l->second[i];
        if (version == 2) made[n++] = (uint8_t)(l->label[i] & 255), made[n++] = (uint8_t)(l->label[i] >> 8);
        else if (l->label[i] && lost == RING_LIVE_PLACES) lost = made[6];
        made[6]++;
    }
    if (made[6] == 0) return 256 * 5;
    if (lost < RING_LIVE_PLACES) return 256 * 20 + lost;
    if (room < n) return 256 * 17;
    memcpy(file, made, n);
    return 0;
}

/* ---- sessions */

static const uint16_t periods[] = {1, 2, 3, 4, 5, 6, 7, 8, 9, 12, 16, 60, 64, 512, 4093, 4095, 4096, 4097, 0, 65535};

static unsigned given[33];
static unsigned judged[33];

/* The file of the rows present, in the lent bytes and past them; and the verdict on it. */
static int file_of(const struct ring_live *l) {
    static uint8_t ours[600], theirs[600];
    static struct verdict v;
    const struct ring_live was = *l;
    uint64_t version = below(10) ? 1 + below(2) : below(2) ? 3 * below(2) : UINT64_MAX - below(3);
    size_t room = below(4) ? RING_FILE_BYTES + below(80) : below(RING_FILE_BYTES + 1);
    memset(ours, 0x5a, sizeof ours);
    memset(theirs, 0x5a, sizeof theirs);
    uint32_t a = ring_live_file(l, version, ours, room), b = other_file(l, version, theirs, room);
    given[a / 256]++;
    if (a != b) return fail("the answer for the file");
    if (memcmp(ours, theirs, sizeof ours)) return fail("the file of the rows present");
    if (memcmp(l, &was, sizeof was)) return fail("a file leaves the live table as it is");
    if (a || ours[6] > 10) return 0;
    size_t size = 7 + (version == 2 ? 8u : 6u) * ours[6];
    oracle_verdict(ours, size, &v);
    a = ring_verdict(ours, size);
    judged[a / 256]++;
    if (a != 256 * v.number + v.place) return fail("the verdict on the rows present");
    return a / 256 == 0 || a / 256 == 10 || a / 256 == 13 || a / 256 == 14 ? 0 : fail("the rows present are a table");
}

static int session(unsigned calls) {
    struct ring_live ours, theirs;
    size_t elements = below(12) == 0 ? below(40) : 2 + below(31);
    memset(&ours, 0x5a, sizeof ours);
    uint32_t a = ring_live_new(&ours, elements), b = other_new(&theirs, elements);
    given[a / 256]++;
    if (a != b || memcmp(&ours, &theirs, sizeof ours)) return fail("new");
    if (a) return ring_live_add(&ours, 1, 1, 1, 2, 0) != 256 * 15 ? fail("a refused new one is off") : 0;
    unsigned easy = below(2), many = easy ? 12 : sizeof periods / sizeof *periods;
    for (unsigned k = 0; k < calls; k++) {
        if (below(easy ? 12 : 3) == 0) {
            size_t place = below(8) ? below(66) : below(2) ? SIZE_MAX : ((size_t)1 << 32) + below(64);
            a = ring_live_remove(&ours, place);
            b = other_remove(&theirs, place);
        } else {
            unsigned period = easy ? 1u << below(13) : periods[below(many)];
            unsigned cost = below(20) ? 1 + below(period ? period : 1) : below(2) ? 0 : period + 1;
            unsigned first = below(30) ? 1 + below((unsigned)elements) : below(300);
            unsigned second = below(30) ? 1 + below((unsigned)elements) : 256 + below(40);
            unsigned label = below(3) ? 0 : below(65536);
            a = ring_live_add(&ours, (uint16_t)cost, (uint16_t)period, (uint16_t)first, (uint16_t)second, (uint16_t)label);
            b = other_add(&theirs, (uint16_t)cost, (uint16_t)period, (uint16_t)first, (uint16_t)second, (uint16_t)label);
        }
        given[a / 256]++;
        if (a != b) return fail("the answer");
        if (memcmp(&ours, &theirs, sizeof ours)) return fail("the live table");
        if (below(8) == 0 && file_of(&ours)) return 1;
    }
    /* one number changed: off, unless it is a label of a row, or a cost or row that keeps every sum */
    struct ring_live broken = ours;
    unsigned i = below(RING_LIVE_PLACES);
    int free_place = ours.period[i] == 0;
    switch (below(8)) {
    case 0: broken.elements = below(2) ? below(2) : 33 + below(1000); break;
    case 1: broken.denominator += 1 + below(5000); break;
    case 2: broken.sums[below(32)] += 1 + below(3); break;
    case 3: broken.cost[i] += 1; break;
    case 4: broken.period[i] = free_place ? 4 : 0; break;
    case 5: broken.first[i] = 255; break;
    case 6: broken.second[i] = free_place ? 1 : broken.first[i]; break;
    default: broken.label[i] += 1; if (!free_place) return 0; break;
    }
    struct ring_live was = broken;
    if (ring_live_add(&broken, 1, 1, 1, 2, 0) != 256 * 15 || ring_live_remove(&broken, i) != 256 * 15) return fail("15");
    if (ring_live_file(&broken, 2, NULL, 0) != 256 * 15) return fail("15 of the file");
    if (memcmp(&broken, &was, sizeof was)) return fail("a refusal changes nothing");
    given[15]++;
    return 0;
}

/* ---- the limits */

static int limits(void) {
    struct ring_live l, full;
    unsigned n = 0;
    if (ring_live_new(&l, 32)) return fail("new");
    for (unsigned a = 1; a <= 32 && n < 64; a++)
        for (unsigned k = 0; k < 2; k++, n++)
            if (ring_live_add(&l, 1, k ? 4096 : 2, (uint16_t)a, (uint16_t)(a % 32 + 1), (uint16_t)n) != n) return fail("64 rows");
    full = l;
    if (ring_live_add(&l, 1, 8, 1, 2, 0) != 256 * 24) return fail("a 65th row");
    if (ring_live_add(&l, 2, 2, 1, 2, 9) != 256 * 18) return fail("18 comes before 24");
    if (ring_live_remove(&l, 63) || ring_live_remove(&l, 0)) return fail("removing places 0 and 63");
    if (ring_live_remove(&l, 0) != 256 * 25 || ring_live_remove(&l, 64) != 256 * 25) return fail("25");
    if (ring_live_add(&l, 1, 2, 1, 2, 0) != 0 || ring_live_add(&l, 1, 4096, 32, 1, 63) != 63) return fail("places are used again");
    if (memcmp(&l, &full, sizeof l)) return fail("the same rows give the same live table");
    if (ring_live_new(&l, 4) || ring_live_add(&l, 1, 4095, 1, 2, 0)) return fail("period 4095");
    if (ring_live_add(&l, 1, 4096, 2, 3, 0) != 256 * 11 || ring_live_add(&l, 1, 4097, 2, 3, 0) != 256 * 8) return fail("4096 and 4097");
    if (ring_live_add(&l, 2, 3, 1, 3, 0) != 1 || l.denominator != 4095 || l.sums[0] != 1 + 2 * 1365) return fail("a sum");
    if (ring_live_remove(&l, 0) || l.denominator != 3) return fail("the denominator shrinks");
    if (l.sums[0] != 2 || l.sums[1] != 2 || l.sums[2]) return fail("and the sums with it");
    if (ring_live_remove(&l, 1) || l.denominator != 1 || l.sums[0]) return fail("empty again");
    memset(&l, 0xff, sizeof l);
    if (ring_live_add(&l, 1, 1, 1, 2, 0) != 256 * 15) return fail("all ones");
    /* in order, but no calls lead there */
    if (ring_live_new(&l, 2)) return fail("new");
    l.cost[5] = 1, l.period[5] = 4093, l.first[5] = 1, l.second[5] = 2, l.denominator = 4093, l.sums[0] = 1;
    return ring_live_add(&l, 1, 1, 2, 1, 0) != 0 ? fail("a state that keeps the rules") : 0;
}

/* ---- each rule broken by itself, all else as it should be */

static struct ring_live l;

static void fresh(size_t elements) {
    memset(&l, 0, sizeof l);
    l.elements = elements;
    l.denominator = 1;
}

/* a row by hand, its load in units of 1 / denominator on each segment of its route */
static void hand(unsigned i, unsigned cost, unsigned period, unsigned first, unsigned second, uint64_t load) {
    l.cost[i] = (uint16_t)cost, l.period[i] = (uint16_t)period, l.first[i] = (uint8_t)first, l.second[i] = (uint8_t)second;
    for (unsigned e = first; e >= 1 && e <= l.elements && e != second && second <= l.elements; e = e == l.elements ? 1 : e + 1)
        l.sums[e - 1] += load;
}

static int off(const char *what) {
    struct ring_live was = l;
    uint8_t file[RING_FILE_BYTES] = {0};
    int all = ring_live_add(&l, 1, 1, 2, 1, 0) == 256 * 15 && ring_live_remove(&l, 0) == 256 * 15 &&
              ring_live_file(&l, 2, file, sizeof file) == 256 * 15 && !memcmp(&l, &was, sizeof l) && file[0] == 0;
    return all ? 0 : fail(what);
}

static int broken_states(void) {
    int bad = 0;
    fresh(0), bad |= off("M 0");
    fresh(1), bad |= off("M 1");
    fresh(33), bad |= off("M 33");
    fresh(SIZE_MAX), bad |= off("the largest M");
    fresh(4), l.label[63] = 1, bad |= off("a label in a free place");
    fresh(4), l.cost[7] = 1, bad |= off("a cost in a free place");
    fresh(4), l.first[7] = 1, bad |= off("a first end in a free place");
    fresh(4), l.second[7] = 1, bad |= off("a second end in a free place");
    fresh(4), l.denominator = 4, hand(3, 1, 4, 0, 2, 1), bad |= off("end 0");
    fresh(4), l.denominator = 4, hand(3, 1, 4, 1, 5, 1), bad |= off("an end past M");
    fresh(4), l.denominator = 4, hand(3, 1, 4, 2, 2, 1), bad |= off("equal ends");
    fresh(4), l.denominator = 4097, hand(3, 1, 4097, 1, 2, 1), bad |= off("period 4097");
    fresh(4), l.denominator = 4, hand(3, 0, 4, 1, 2, 0), bad |= off("cost 0");
    fresh(4), l.denominator = 4, hand(3, 5, 4, 1, 2, 5), bad |= off("a cost above the period");
    fresh(4), l.denominator = 4, hand(3, 1, 4, 1, 2, 1), hand(9, 2, 4, 1, 2, 2), bad |= off("equal rows");
    fresh(4), l.denominator = 8, hand(3, 1, 4, 1, 2, 2), bad |= off("a multiple as the denominator");
    fresh(4), l.denominator = 0, bad |= off("denominator 0");
    fresh(4), l.denominator = 4095 * 4096, hand(0, 1, 4095, 1, 2, 4096), hand(1, 1, 4096, 1, 2, 4095);
    bad |= off("a denominator above 4096");
    fresh(4), l.denominator = 4, hand(3, 1, 4, 1, 2, 2), bad |= off("a sum that is too large");
    fresh(4), l.denominator = 4, hand(3, 1, 4, 1, 2, 0), bad |= off("a sum that is too small");
    fresh(4), l.sums[4] = 1, bad |= off("a sum past the last segment");
    fresh(4), l.sums[31] = UINT64_MAX, bad |= off("the largest sum");
    /* and the same by hand with nothing broken */
    fresh(4), l.denominator = 4, hand(3, 1, 4, 1, 2, 1);
    return bad || ring_live_add(&l, 1, 4, 2, 3, 0) != 0 ? fail("a state that keeps the rules, by hand") : 0;
}

int main(int argc, char **argv) {
    unsigned sessions = argc > 1 ? (unsigned)strtoul(argv[1], NULL, 10) : 100;
    state = argc > 2 ? strtoull(argv[2], NULL, 10) : 1;
    if (sizeof(struct ring_live) != 784) return fail("the size that the header says");
    if (limits() || broken_states()) return 1;
    for (unsigned k = 0; k < sessions; k++)
        if (session(150)) return 1;
    static const unsigned wanted[] = {0, 3, 4, 5, 7, 8, 9, 11, 15, 17, 18, 20, 24, 25};
    for (unsigned k = 0; k < sizeof wanted / sizeof *wanted && sessions >= 200; k++)
        if (!given[wanted[k]]) return fail("a number that was never given");
    printf("%u sessions;", sessions);
    for (unsigned n = 0; n < 33; n++)
        if (given[n]) printf(" %u: %u", n, given[n]);
    printf("; verdicts");
    for (unsigned n = 0; n < 33; n++)
        if (judged[n]) printf(" %u: %u", n, judged[n]);
    printf("\n");
    return 0;
}
