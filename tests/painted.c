/* How much stack the functions for C really take: each is called on a stack that was filled with a mark, and what it left unmarked counts.
 *
 *     painted TABLE..
 *
 * Prints, for each function, the most bytes over the tables, and its name. */
#include "ringplan.h"

#include <stdio.h>
#include <string.h>
#include <ucontext.h>

enum { ROOM = 1 << 18, MARK = 0xa5, FUNCTIONS = 12 };

static uint8_t stack[ROOM], file[RING_FILE_BYTES + 1], raised[RING_FILE_BYTES], list[RING_LIST_BYTES];
static uint64_t plan[RING_PLAN_SLOTS], sets[RING_MOST_SETS];
static uint32_t values[RING_VALUES];
static const char *const names[FUNCTIONS] = {
    "ring_plan", "ring_plain_plan", "ring_plan_limited", "ring_plan_relayed", "ring_raise", "ring_sets", "ring_shared", "ring_values",
    "ring_verdict", "ring_verdict_limited", "ring_verdict_relayed", "ring_element_list"};
static ucontext_t here, there;
static size_t bytes;
static unsigned which;
static uint8_t *top;

static void call(void) {
    /* the called function starts here, less the few bytes that this one keeps */
    top = __builtin_frame_address(0);
    switch (which) {
    case 0: ring_plan(file, bytes, plan, RING_PLAN_SLOTS); break;
    case 1: ring_plain_plan(file, bytes, plan, RING_PLAN_SLOTS); break;
    case 2: ring_plan_limited(file, bytes, 1000, 1000, plan, RING_PLAN_SLOTS); break;
    case 3: ring_plan_relayed(file, bytes, 1, plan, RING_PLAN_SLOTS); break;
    case 4: ring_raise(file, bytes, raised, sizeof raised); break;
    case 5: ring_sets(file, bytes, sets, RING_MOST_SETS); break;
    case 6: ring_shared(file, bytes, 0, 0, values); break;
    case 7: ring_values(file, bytes, values, RING_VALUES); break;
    case 8: ring_verdict(file, bytes); break;
    case 9: ring_verdict_limited(file, bytes, 1000, 1000); break;
    case 10: ring_verdict_relayed(file, bytes, 1); break;
    default: ring_element_list(file, bytes, plan, RING_PLAN_SLOTS, 1, list, RING_LIST_BYTES); break;
    }
}

static size_t taken(void) {
    memset(stack, MARK, sizeof stack);
    getcontext(&there);
    there.uc_stack.ss_sp = stack;
    there.uc_stack.ss_size = sizeof stack;
    there.uc_link = &here;
    makecontext(&there, call, 0);
    swapcontext(&here, &there);
    size_t untouched = 0;
    while (stack[untouched] == MARK) untouched++;
    return (size_t)(top - (stack + untouched));
}

int main(int argc, char **argv) {
    size_t most[FUNCTIONS] = {0};
    for (int k = 1; k < argc; k++) {
        FILE *in = fopen(argv[k], "rb");
        if (!in) return 2;
        bytes = fread(file, 1, sizeof file, in);
        fclose(in);
        for (which = 0; which < FUNCTIONS; which++) {
            size_t now = taken();
            if (now > most[which]) most[which] = now;
        }
    }
    for (which = 0; which < FUNCTIONS; which++) printf("%zu %s\n", most[which], names[which]);
    return 0;
}
