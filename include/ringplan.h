/* Collarspoke's functions for C.
 *
 * All take the bytes of a table file and check everything themselves: any bytes of any length may be handed in, also none. A table of one
 * ring begins with "RBT"; in version 2 each row has a label. A table of a board with two rings, one each way, begins with "RB2", and each
 * row has a direction; elements and segments have the board's numbers on both. Functions of which it is said take one ring alone. A pointer
 * may be NULL where its length is 0. The file and the memory lent for an answer must not overlap. The functions need no heap, no
 * initialisation and no C library but memcpy, memset and memmove, keep nothing between calls, and may be called from several threads at
 * once as long as no two calls share lent memory. None calls itself; each takes at most RING_STACK_BYTES bytes of stack.
 *
 * All but ring_element_list answer 256 × number + place. Number 0 says admitted, or done. Any other is a refusal, numbered below; its place
 * is the row or the set concerned, counted from 0, or the segment, numbered from 1, or 0 where the refusal has no place of its own. A
 * refusal leaves lent memory as it was, and memory past the part that an answer fills is left alone too. */
#ifndef RINGPLAN_H
#define RINGPLAN_H

#include <stddef.h>
#include <stdint.h>

/* The version of these functions. The second number grows where something is added, the first where something changes. */
#define RINGPLAN_VERSION_MAJOR 6
#define RINGPLAN_VERSION_MINOR 2

#ifdef __cplusplus
extern "C" {
#endif

enum {
    RING_DONE = 0,              /* admitted, or done */
    RING_SHORT_FILE = 1,        /* the file has under 7 bytes */
    RING_WRONG_MARK = 2,        /* it begins neither with "RBT" nor with "RB2", or with "RB2" where one ring alone is taken */
    RING_WRONG_VERSION = 3,     /* its version is neither 1 nor 2, or not 1 with "RB2" */
    RING_WRONG_ELEMENTS = 4,    /* the ring has not 2 to 32 elements */
    RING_WRONG_ROWS = 5,        /* the table has not 1 to 64 rows */
    RING_WRONG_LENGTH = 6,      /* the file's length is not 7 + 6 × rows; in version 2, 7 + 8 × rows; with "RB2", 7 + 7 × rows */
    RING_WRONG_ENDS = 7,        /* an end is no element of the ring, or both are equal; place: the row */
    RING_WRONG_PERIOD = 8,      /* the period is not 1 to 4096 slots; place: the row */
    RING_WRONG_COST = 9,        /* the cost is 0 or above the period; place: the row */
    RING_NO_CUT = 10,           /* every element has some row of a ring through it; place: 0 clockwise, 1 counterclockwise */
    RING_LONG_HYPERPERIOD = 11, /* the least common multiple of the periods is above 4096 slots */
    /* 12 is retired and never given: two overlap sets can't end alike */
    RING_LIGHT_ROW = 13,        /* periods differ, and the row's cost is too small for it; place: the row */
    RING_OVER_BOUND = 14,       /* an overlap set asks for more than the bus can carry; place: the set */
    RING_OFF_STATE = 15,        /* a live table breaks the rules (ringlive.h); not given by these functions */
    RING_HAS_FINISHED = 16,     /* not given by these functions */
    RING_SHORT_OUTPUT = 17,     /* the memory lent for the answer is too short */
    RING_PASTED_ROW = 18,       /* a row has the ends, the period and the direction of an earlier one; place: the later row */
    RING_BAD_WORD = 19,         /* a word of the plan has rows that overlap, or a bit past the last row; place: the slot */
    RING_LOST_LABEL = 20,       /* a label that is to be written in version 1 (ringlive.h); place: the row */
    RING_OUR_LIMIT = 21,        /* our rows (labels below 32,768) are over our limit on a segment; place: the segment */
    RING_THEIR_LIMIT = 22,      /* the second maker's rows (labels from 32,768 on) are over their limit on a segment; place: the segment */
    RING_WRONG_LIMIT = 23,      /* a limit is above 1,000 thousandths */
    RING_NO_FREE_PLACE = 24,    /* all 64 places of a live table hold rows (ringlive.h) */
    RING_NO_ROW_THERE = 25,     /* a place of a live table is above 63 or holds no row (ringlive.h) */
    RING_WRONG_WAY = 26,        /* a direction is neither 0, clockwise, nor 1, counterclockwise; place: the row */
    RING_WRONG_RELAY = 27,      /* the relay is no element of the ring */
    RING_MANY_ROWS = 28,        /* with the rows through the relay split, the table has more than 64 rows */
    RING_WRONG_ELEMENT = 29,    /* the ring has no such element */
    RING_WRONG_LIST = 30,       /* not given by these functions: a list file's element is not 1 to 32, or its hyperperiod not 1 to 4096 */
    RING_WRONG_ENTRY = 31,      /* not given by these functions: a list file's slot, row, way or order is wrong; place: the entry */
    RING_NO_ROW = 32,           /* a row that is asked for is past the last; place: 0 for the first of the two, 1 for the second */
    RING_LONG_TEXT = 33,        /* not given by these functions: a table in text has more than 65,536 bytes */
    RING_NO_NUMBER = 34,        /* not given by these functions: a field of a table in text is no number */
    RING_LARGE_NUMBER = 35,     /* not given by these functions: a number of a table in text is above 65,535 */
    RING_NO_HEADING = 36,       /* not given by these functions: a table in text begins neither with "elements" nor with "board" */
    RING_MISSING_FIELD = 37,    /* not given by these functions: a line of a table in text lacks a field */
    RING_SPARE_FIELD = 38       /* not given by these functions: a line of a table in text has a field too many */
};

/* number and place of an answer */
#define RING_NUMBER(answer) ((unsigned)((answer) / 256))
#define RING_PLACE(answer) ((unsigned)((answer) % 256))

/* the longest table file, the longest plan, the most sets, the longest list file, and the most stack in bytes */
enum { RING_FILE_BYTES = 519, RING_PLAN_SLOTS = 4096, RING_MOST_SETS = 64, RING_LIST_BYTES = 32776, RING_STACK_BYTES = 12288 };

/* Whether the bus can carry the table. Gives 0 to 14, 18 and 26. */
uint32_t ring_verdict(const uint8_t *file, size_t file_bytes);

/* What the verdict finds of an admitted table, by place in `values`. */
enum {
    RING_CUT = 0,         /* the element at which the ring is cut to a line; of two rings, the clockwise one, 1 where it has no rows */
    RING_SECOND_CUT = 1,  /* that of the counterclockwise ring, 1 where it has no rows; 0 for a table of one ring */
    RING_INTERVAL = 2,    /* slots of the shortest planning interval, L; an interval ends at every multiple of a row's period */
    RING_HYPERPERIOD = 3, /* slots of the plan, h; then it repeats */
    RING_LOAD = 4,        /* load of the most loaded overlap set in thousandths, rounded up */
    RING_SETS = 5,        /* number of overlap sets */
    RING_VALUES = 6       /* how many values there are */
};

/* Fills in the six values of an admitted table. Gives 0 to 14, 18 and 26, and 17 where `room` is under 6. */
uint32_t ring_values(const uint8_t *file, size_t file_bytes, uint32_t *values, size_t room);

/* The segments of the ring that rows i and j share: bit s - 1 of `word` is set if both routes use segment s, which joins element s to the
 * next one, on both rings of a board. It is 0 exactly if the rows don't overlap, and they may then share a slot; rows of different rings
 * never overlap. Only the table itself is checked, so that it answers also for a table that can't be carried, or has no cut. Gives 0 to 9,
 * 26 and 32. `word` must not be NULL. */
uint32_t ring_shared(const uint8_t *file, size_t file_bytes, size_t i, size_t j, uint32_t *word);

/* The overlap sets of a table, one word a set: bit i is set if row i belongs to it. It fills as many words as there are sets; 64 are always
 * enough. Of two rings the clockwise one's come first. A table that is refused with 13 or 14 has its list too, which shows what set 14
 * speaks of. Gives 0 to 11, 17, 18 and 26. */
uint32_t ring_sets(const uint8_t *file, size_t file_bytes, uint64_t *sets, size_t room);

/* The whole plan of an admitted table: word s of `plan` has bit i set if row i moves in slot s. It fills as many words as the hyperperiod
 * has slots; 4096 words are always enough. Repeated from slot 0 on, it serves for ever. Gives 0 to 14, 17,
 * 18 and 26. */
uint32_t ring_plan(const uint8_t *file, size_t file_bytes, uint64_t *plan, size_t plan_words);

/* The same plan by a second planner that keeps no account of a slot: it asks of each row that is in the slot already whether the two
 * overlap. It answers as ring_plan does, word for word and refusal for refusal, and takes longer. Gives 0 to 14, 17, 18 and 26. */
uint32_t ring_plain_plan(const uint8_t *file, size_t file_bytes, uint64_t *plan, size_t plan_words);

/* Verdict and whole plan of one ring alone with a limit for each of two parties, in thousandths of any one segment, 0 to 1,000. Rows with
 * a label below 32,768 are ours, also all of version 1, where labels are 0; the others are the second maker's. A party is over its limit
 * on a segment if the exact sum of cost / period over its own rows that use it is more than limit / 1000; a party without rows never is.
 * Whether it is depends on no row of the other party, but an earlier refusal may come first: 23, 1 to 9, 18, 10, 11, then 21 over all
 * segments, 22 over all segments, and 13 and 14. A limit of 1,000 is still a limit: a party that asks for more than all of a segment gets
 * 21 or 22, where ring_verdict gives 13 or 14.
 *
 * Whether the bus can carry the table within the limits. Gives 0 to 14, 18 and 21 to 23. */
uint32_t ring_verdict_limited(const uint8_t *file, size_t file_bytes, uint32_t ours, uint32_t theirs);

/* The whole plan of a table that is admitted within the limits: the very words of ring_plan. Gives 0 to 14, 17, 18 and 21 to 23. */
uint32_t ring_plan_limited(const uint8_t *file, size_t file_bytes, uint32_t ours, uint32_t theirs, uint64_t *plan, size_t plan_words);

/* Verdict and whole plan of one ring alone with a relay, for tables that get 10. Each row that goes through element `relay`, which then is
 * neither of its ends, becomes two rows of its cost and period, first to relay and relay to second; the others stay. The split rows stand
 * where the original stood, so that later rows move on, and bits of the plan and places of 13 and 14 count split rows; 18 reads the table
 * as it is given. No row goes through the relay then, so 10 does not occur.
 *
 * The second half of a row carries the job of the period before, which the relay has stored whole: in the very first period its slots
 * carry no data, though its bits stand in the plan. A job's data comes to the relay within one period of its arrival, and to the row's
 * second end within two. The relay holds at most two jobs of a row at a time, whole or in part.
 *
 * The hyperperiod h is the least common multiple of the periods, as without a relay. ring_values has it only of a table with a cut; room
 * for RING_PLAN_SLOTS words is always enough.
 *
 * Whether the bus can carry the split table. Gives 0 to 9, 11, 13, 14, 18, 27 and 28. */
uint32_t ring_verdict_relayed(const uint8_t *file, size_t file_bytes, uint32_t relay);

/* The whole plan of the split table where it is admitted: bit i is set if split row i moves. ring_element_list does not read such a plan.
 * Gives 0 to 9, 11, 13, 14, 17, 18, 27 and 28. */
uint32_t ring_plan_relayed(const uint8_t *file, size_t file_bytes, uint32_t relay, uint64_t *plan, size_t plan_words);

/* The table file of one ring alone, with the cost of each row that 13 could name, a light one, raised to the least that passes, and
 * nothing else changed. It has as many bytes as the file, and its version and labels; a file without a light row comes back as it is. The
 * raised file's verdict is 0 or 14, never 13. In its plan the first slots of each job, as many as the row's old cost, carry the data, all
 * of them before the deadline, and the rest stay empty. Gives 0 to 11, 17 where `room` is under `file_bytes`, and 18. */
uint32_t ring_raise(const uint8_t *file, size_t file_bytes, uint8_t *out, size_t room);

/* Where the numbers of a list file stand, low bytes first: element (8 bits), hyperperiod (16), and then the entries, each with its slot
 * (16 bits), its row (8) and its way (8): what the element does there. Slots ascend; a slot has at most one receive and then at most one
 * send. */
enum { RING_LIST_ELEMENT = 5, RING_LIST_HYPERPERIOD = 6, RING_LIST_HEADER = 8, RING_ENTRY_BYTES = 4 };
enum { RING_ENTRY_SLOT = 0, RING_ENTRY_ROW = 2, RING_ENTRY_WAY = 3 };
enum { RING_RECEIVE = 0, RING_SEND = 1 };

/* number and place of what ring_element_list answers; the number is 0 where it answers how many bytes it wrote */
#define RING_LIST_NUMBER(answer) ((unsigned)((answer) >> 32))
#define RING_LIST_PLACE(answer) ((unsigned)((answer) & 0xffffffffu))

/* The list file of one element, on one ring alone: its moves in the first h words of `plan`, h the hyperperiod, for a handler that walks it
 * slot by slot. It answers how many bytes it wrote to `list`; RING_LIST_BYTES are always enough. A refusal is answered as
 * 2^32 × number + place, since a place may be a slot. Gives 0 to 14 and 18 as the verdict does, then 29, 19 for a word present among the
 * first h, and 17 where the plan has under h words or `room` is too small. Words past the first h are not looked at. The plan may be any;
 * ring_plan's is never refused. */
uint64_t ring_element_list(const uint8_t *file, size_t file_bytes, const uint64_t *plan, size_t plan_words, uint32_t element,
                           uint8_t *list, size_t room);

#ifdef __cplusplus
}
#endif

#endif
