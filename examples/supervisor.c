/* How a supervisor uses Collarspoke: it reads a table, checks it, plans it, has the list of one element made, and walks that list as the
 * slot handler of the element would.
 *
 *     supervisor TABLE ELEMENT
 *
 * Prints, for each slot in which the element sends or receives, the slot, what it does and the row concerned. */
#include "ringplan.h"

#include <stdio.h>
#include <stdlib.h>

/* Says so where an answer is a refusal; ringplan.h has the meaning of each number. */
static int refused(unsigned number, unsigned place) {
    if (number == RING_DONE) return 0;
    fprintf(stderr, "supervisor: refused with %u, place %u\n", number, place);
    return 1;
}

/* What the slot handler of an element does at a tick: `entry` is the first entry that it has not come to yet, and what stands in this
 * slot, a receive, a send or both, it does. It never looks at another element's moves. */
static const uint8_t *handle(const uint8_t *entry, const uint8_t *end, unsigned slot) {
    for (; entry < end && entry[RING_ENTRY_SLOT] + 256u * entry[RING_ENTRY_SLOT + 1] == slot; entry += RING_ENTRY_BYTES)
        printf("slot %u %s row %u\n", slot, entry[RING_ENTRY_WAY] == RING_SEND ? "send" : "receive", entry[RING_ENTRY_ROW]);
    return entry;
}

int main(int argc, char **argv) {
    if (argc != 3) {
        fprintf(stderr, "usage: supervisor TABLE ELEMENT\n");
        return 2;
    }
    /* one byte more than the longest table, so that a longer file is refused and not cut short */
    static uint8_t file[RING_FILE_BYTES + 1];
    static uint64_t plan[RING_PLAN_SLOTS];
    static uint8_t list[RING_LIST_BYTES];
    uint32_t values[RING_VALUES];
    FILE *in = fopen(argv[1], "rb");
    if (!in) {
        fprintf(stderr, "supervisor: cannot open %s\n", argv[1]);
        return 2;
    }
    size_t bytes = fread(file, 1, sizeof file, in);
    fclose(in);

    uint32_t answer = ring_values(file, bytes, values, RING_VALUES);
    if (refused(RING_NUMBER(answer), RING_PLACE(answer))) return 1;
    answer = ring_plan(file, bytes, plan, RING_PLAN_SLOTS);
    if (refused(RING_NUMBER(answer), RING_PLACE(answer))) return 1;
    unsigned slots = values[RING_HYPERPERIOD];
    uint64_t size = ring_element_list(file, bytes, plan, slots, (uint32_t)strtoul(argv[2], NULL, 10), list, sizeof list);
    if (refused(RING_LIST_NUMBER(size), RING_LIST_PLACE(size))) return 1;
    printf("the plan has %u slots and then repeats\n", slots);
    const uint8_t *entry = list + RING_LIST_HEADER;
    for (unsigned slot = 0; slot < slots; slot++) entry = handle(entry, list + size, slot);
    return 0;
}
