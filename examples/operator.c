/* An operator's session between reels: rows are added to and removed from a live table, one at a time.
 *
 *     operator <LINES
 *
 * Reads lines and prints a line for each:
 *
 *     new ELEMENTS                          number
 *     add COST PERIOD FIRST SECOND LABEL    number, and the place taken
 *     remove PLACE                          number
 *     show                                  the denominator, then the rows present and the load sums of the segments, a line each
 *     verdict                               number and place of the verdict on the rows present, in the order of their places
 *
 * Any other line is answered `no such line`. ringplan.h has the meaning of each number. The program `session` answers the same. */
#include "ringlive.h"
#include "ringplan.h"

#include <inttypes.h>
#include <stdio.h>
#include <string.h>

/* The verdict on the rows present, or why they are no table file. */
static uint32_t verdict(const struct ring_live *live) {
    static uint8_t file[RING_FILE_BYTES];
    uint32_t answer = ring_live_file(live, 2, file, sizeof file);
    return answer ? answer : ring_verdict(file, 7 + 8 * (size_t)file[6]);
}

static void show(const struct ring_live *live) {
    printf("denominator %" PRIu64 "\n", live->denominator);
    for (unsigned i = 0; i < RING_LIVE_PLACES; i++)
        if (live->period[i])
            printf("row %u %u %u %u %u %u\n", i, live->cost[i], live->period[i], live->first[i], live->second[i], live->label[i]);
    for (unsigned s = 1; s <= live->elements; s++) printf("segment %u %" PRIu64 "\n", s, live->sums[s - 1]);
}

int main(void) {
    /* all zeros, which is no live table: 15 until one is made */
    static struct ring_live live;
    char line[128];
    while (fgets(line, sizeof line, stdin)) {
        unsigned cost, period, first, second, label;
        size_t place, elements;
        uint32_t answer;
        int end = 0;
        if (sscanf(line, "add %u %u %u %u %u %n", &cost, &period, &first, &second, &label, &end) == 5 && line[end] == '\0' &&
            cost < 65536 && period < 65536 && first < 65536 && second < 65536 && label < 65536) {
            answer = ring_live_add(&live, (uint16_t)cost, (uint16_t)period, (uint16_t)first, (uint16_t)second, (uint16_t)label);
            printf("add %u %u\n", RING_NUMBER(answer), RING_PLACE(answer));
        } else if (sscanf(line, "new %zu %n", &elements, &end) == 1 && line[end] == '\0') {
            printf("new %u\n", RING_NUMBER(ring_live_new(&live, elements)));
        } else if (sscanf(line, "remove %zu %n", &place, &end) == 1 && line[end] == '\0') {
            printf("remove %u\n", RING_NUMBER(ring_live_remove(&live, place)));
        } else if (strcmp(line, "show\n") == 0) {
            show(&live);
        } else if (strcmp(line, "verdict\n") == 0) {
            answer = verdict(&live);
            printf("verdict %u %u\n", RING_NUMBER(answer), RING_PLACE(answer));
        } else {
            printf("no such line\n");
        }
    }
    return 0;
}
