/* An independent implementation of the ring bus rules, by definition and without a thought for speed.
 * It shares no code and no algorithm with the library: overlap is by shared ring segments, overlap sets by a search for largest sets,
 * loads by trying both roundings of every row. The board's numbers are never mirrored: a counterclockwise row is walked the other way. */
#ifndef ORACLE_H
#define ORACLE_H

#include <stddef.h>
#include <stdint.h>

enum { MAX_ELEMENTS = 32, MAX_ROWS = 64, MAX_RINGS = 2, MAX_SLOTS = 4096, MAX_SETS = 4096 };

struct row {
    unsigned cost, period, first, second, label, way; /* way: 0 clockwise, 1 counterclockwise */
};

struct table {
    unsigned rings; /* 1 where the mark is RBT, 2 where it is RB2, 0 where it is neither or none is there; kept by a refusal */
    unsigned version, elements, rows;
    struct row row[MAX_ROWS];
};

struct verdict {
    unsigned number, place;
    /* when admitted; the sets also where refused with 13 or 14 */
    unsigned cut[MAX_RINGS], interval, hyper, load, sets; /* the second cut of one ring is 0 */
    unsigned intervals, end[MAX_SLOTS]; /* how many intervals there are, and where each ends */
    uint64_t set[MAX_SETS];
    struct table table;
};

/* The verdict on a file, with all that it finds on the way. */
void oracle_verdict(const uint8_t *file, size_t length, struct verdict *v);

/* The same with a relay: the table that is found is the split one, with the first half of a row before its second. */
void oracle_relayed(const uint8_t *file, size_t length, uint32_t relay, struct verdict *v);

/* The table of a file as it is given; none of it where 1 to 9, 26 or 18 refuses it, but how many rings it has. */
void oracle_given(const uint8_t *file, size_t length, struct table *t);

/* How many jobs of one row the relay holds at once at most, where a plan of the split table is repeated, at least 1; 0 where some row's data
 * does not go through it as promised, and `why` then says what is wrong. `given` is the table before it was split. */
unsigned oracle_held(const struct table *given, uint32_t relay, const uint64_t *plan, unsigned hyper, const char **why);

struct answer {
    unsigned number, place;
};

/* A verdict's number and place in a call that takes tables of one ring alone. */
struct answer oracle_one_ring(const struct verdict *v);

/* The same with limits, ours and the second maker's, in thousandths. */
struct answer oracle_limited(const struct verdict *v, uint32_t ours, uint32_t theirs);

/* What one party's rows ask for of a segment, over the least common multiple of that party's own periods (1 where it has no rows). */
struct fraction {
    uint64_t over, under;
};
struct fraction oracle_asked(const struct table *t, int theirs, unsigned segment);

/* The ring segments that rows i and j of a table share, bit s - 1 for segment s. */
uint32_t oracle_shared(const struct table *t, unsigned i, unsigned j);

/* Whether rows i and j of a table run on one ring and share a segment of it. */
int oracle_overlap(const struct table *t, unsigned i, unsigned j);

/* What is wrong with a word of a plan: rows that overlap, or a bit past the last row. */
int oracle_bad_word(const struct table *t, uint64_t word);

/* The list file of an element's moves in the words of a plan, found by asking every row at every slot; how many bytes it has. */
size_t oracle_list(const struct verdict *v, const uint64_t *plan, unsigned element, uint8_t *list);

/* The loads of interval k that are greatest in row order, after `had` slots; 0 where none qualify. For few rows only. */
int oracle_loads(const struct verdict *v, unsigned k, const uint64_t *had, uint64_t *load);

/* The first slot of interval k, or h where k is their number. */
unsigned oracle_start(const struct verdict *v, unsigned k);

/* The words of interval k for these loads. */
void oracle_words(const struct verdict *v, unsigned k, const uint64_t *load, uint64_t *word);

/* Whether 13 and 14 would not be given if L were the greatest common divisor of all periods, as it was before #105. */
int oracle_before(const struct verdict *v);

/* Whether a plan keeps every promise; `why` then says which is broken. */
int oracle_keeps(const struct verdict *v, const uint64_t *plan, const char **why);

/* The least cost, from its own on, with which row i of a table that has its list of sets is not light. */
unsigned oracle_raised(const struct verdict *v, unsigned i);

/* Whether in a plan the first `data` slots of each job of row i come before its deadline. */
int oracle_arrives(const struct verdict *v, const uint64_t *plan, unsigned i, unsigned data);

#endif
