/* Plain C of the same rules, for measuring, twice. Both keep to the same choice of loads (the greatest in row order), so all give the same
 * words.
 *
 *   plain.c   what an engineer would write first who wants it quick and proves nothing
 *   words.c   the library's own algorithms, as quick as we can write them in C */
#ifndef PLAIN_H
#define PLAIN_H

#include <stddef.h>
#include <stdint.h>

uint32_t plain_verdict(const uint8_t *file, size_t length);
uint32_t plain_values(const uint8_t *file, size_t length, uint32_t *values, size_t room);
uint32_t plain_shared(const uint8_t *file, size_t length, size_t i, size_t j, uint32_t *word);
uint64_t plain_element_list(const uint8_t *file, size_t length, const uint64_t *plan, size_t words, uint32_t element, uint8_t *list,
                            size_t room);
uint32_t plain_sets(const uint8_t *file, size_t length, uint64_t *sets, size_t room);
uint32_t plain_plan(const uint8_t *file, size_t length, uint64_t *plan, size_t words);
uint32_t plain_verdict_limited(const uint8_t *file, size_t length, uint32_t ours, uint32_t theirs);
uint32_t plain_plan_limited(const uint8_t *file, size_t length, uint32_t ours, uint32_t theirs, uint64_t *plan, size_t words);
uint32_t plain_verdict_relayed(const uint8_t *file, size_t length, uint32_t relay);
uint32_t plain_plan_relayed(const uint8_t *file, size_t length, uint32_t relay, uint64_t *plan, size_t words);
uint32_t plain_raise(const uint8_t *file, size_t length, uint8_t *out, size_t room);

uint32_t words_verdict(const uint8_t *file, size_t length);
uint32_t words_plan(const uint8_t *file, size_t length, uint64_t *plan, size_t words);

/* how many intervals words_plan has planned, and in how many greedy was not enough */
extern unsigned long words_intervals, words_settled;

#endif
