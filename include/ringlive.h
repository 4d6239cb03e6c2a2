/* Collarspoke's live table for C: rows added and removed one at a time, between reels.
 *
 * The caller keeps the live table and lends it to each call; nothing else is kept, so two may be kept, and two threads may each change
 * their own. Each call first looks whether the live table keeps the rules and refuses any other, whatever its bytes, with 15: it is safe
 * to hand in memory that was never set. A refusal changes nothing in it, but that a new one that is refused is all zeros. The functions
 * need no heap, no initialisation and no C library but memcpy, memset and memmove; none calls itself; each takes at most
 * RING_STACK_BYTES bytes of stack (ringplan.h, where the numbers of refusals are).
 *
 * All answer 256 × number + place. Number 0 says done; its place is the place that an added row has taken, else 0. A refusal's place is 0,
 * but for 20. */
#ifndef RINGLIVE_H
#define RINGLIVE_H

#include <stddef.h>
#include <stdint.h>

#ifdef __cplusplus
extern "C" {
#endif

enum { RING_LIVE_PLACES = 64, RING_LIVE_SEGMENTS = 32 };

/* A live table, of 784 bytes. Read it as you like; a change made by hand is found out by the next call, unless it keeps the rules too.
 *
 * A place holds a row if its period is above 0, and zeros if not. Segment s of the ring has the load sums[s - 1] / denominator: the sum
 * of cost / period over the rows whose route uses it. The denominator is the least common multiple of the periods present, 1 if there
 * are none. */
struct ring_live {
    size_t elements;                         /* of the ring, 2 to 32 */
    uint16_t cost[RING_LIVE_PLACES];         /* in slots */
    uint16_t period[RING_LIVE_PLACES];       /* in slots */
    uint8_t first[RING_LIVE_PLACES];         /* the element that sends */
    uint8_t second[RING_LIVE_PLACES];        /* the element that receives */
    uint16_t label[RING_LIVE_PLACES];        /* any number of the caller's */
    uint64_t denominator;                    /* at most 4096 */
    uint64_t sums[RING_LIVE_SEGMENTS];       /* 0 past the last segment */
};

/* Makes a new live table of a ring of `elements`, with no rows. What was there is not looked at. Gives 0, and 4 where there are not 2 to 32
 * elements: then it is all zeros. */
uint32_t ring_live_new(struct ring_live *live, size_t elements);

/* Adds a row, in the lowest free place. Gives 0 with that place, and in this order 15 where the live table breaks the rules, 7 for wrong
 * ends, 8 for a wrong period, 9 for a wrong cost, 18 where a row present has these ends and this period, 24 where all 64 places hold
 * rows, and 11 where the least common multiple of the periods would be above 4096. */
uint32_t ring_live_add(struct ring_live *live, uint16_t cost, uint16_t period, uint16_t first, uint16_t second, uint16_t label);

/* Removes the row in a place, which is then free. Gives 0, 15 as above, and 25 where the place is above 63 or holds no row. */
uint32_t ring_live_remove(struct ring_live *live, size_t place);

/* Writes the rows present as a table file, in the order of their places: what the functions of ringplan.h take. Version 2 has their labels.
 * The file's byte 6 is the number of rows; it has 7 + 6 × rows bytes in version 1 and 7 + 8 × rows in version 2, at most RING_FILE_BYTES.
 * Past it the lent bytes are left alone. The live table stays as it is. Gives 0, and in this order 15 as above, 3 where the version is
 * neither 1 nor 2, 5 where there are no rows, 20 for a row with a label in version 1, its place the lowest such row of the file, and 17
 * where `room` is too short. */
uint32_t ring_live_file(const struct ring_live *live, uint64_t version, uint8_t *file, size_t room);

#ifdef __cplusplus
}
#endif

#endif
