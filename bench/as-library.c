/* Plain C under the library's names, so that it can be put in its place. */
#include "plain.h"
#include "ringplan.h"

uint32_t ring_verdict(const uint8_t *file, size_t file_bytes) {
    return plain_verdict(file, file_bytes);
}

uint32_t ring_values(const uint8_t *file, size_t file_bytes, uint32_t *values, size_t room) {
    return plain_values(file, file_bytes, values, room);
}

uint32_t ring_shared(const uint8_t *file, size_t file_bytes, size_t i, size_t j, uint32_t *word) {
    return plain_shared(file, file_bytes, i, j, word);
}

uint64_t ring_element_list(const uint8_t *file, size_t file_bytes, const uint64_t *plan, size_t plan_words, uint32_t element,
                           uint8_t *list, size_t room) {
    return plain_element_list(file, file_bytes, plan, plan_words, element, list, room);
}

uint32_t ring_sets(const uint8_t *file, size_t file_bytes, uint64_t *sets, size_t room) {
    return plain_sets(file, file_bytes, sets, room);
}

uint32_t ring_plan(const uint8_t *file, size_t file_bytes, uint64_t *plan, size_t plan_words) {
    return plain_plan(file, file_bytes, plan, plan_words);
}

uint32_t ring_plain_plan(const uint8_t *file, size_t file_bytes, uint64_t *plan, size_t plan_words) {
    return plain_plan(file, file_bytes, plan, plan_words);
}

uint32_t ring_verdict_limited(const uint8_t *file, size_t file_bytes, uint32_t ours, uint32_t theirs) {
    return plain_verdict_limited(file, file_bytes, ours, theirs);
}

uint32_t ring_plan_limited(const uint8_t *file, size_t file_bytes, uint32_t ours, uint32_t theirs, uint64_t *plan, size_t plan_words) {
    return plain_plan_limited(file, file_bytes, ours, theirs, plan, plan_words);
}

uint32_t ring_verdict_relayed(const uint8_t *file, size_t file_bytes, uint32_t relay) {
    return plain_verdict_relayed(file, file_bytes, relay);
}

uint32_t ring_plan_relayed(const uint8_t *file, size_t file_bytes, uint32_t relay, uint64_t *plan, size_t plan_words) {
    return plain_plan_relayed(file, file_bytes, relay, plan, plan_words);
}

uint32_t ring_raise(const uint8_t *file, size_t file_bytes, uint8_t *out, size_t room) {
    return plain_raise(file, file_bytes, out, room);
}
