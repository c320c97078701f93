/*
 * How fast a dispatcher plans, through the C library: plan_rate SLOTS
 *
 * 8 processors, 100 tasks at a load of 7.5, each table read as it is planned. Writes the quanta and the sum of their
 * subtasks' indexes. plan_rate.rt.txt does the same in the library's own language.
 */
#include "pfair.h"
#include <inttypes.h>
#include <stdio.h>
#include <stdlib.h>

enum { PROCESSORS = 8, TASKS = 100 };

static const uint64_t periods[10] = {12, 14, 15, 18, 20, 21, 24, 28, 30, 35};

static struct pfair_entry arrival(uint64_t k) {
    uint64_t period = periods[k % 10];
    struct pfair_entry entry = {.kind = PFAIR_KIND_ARRIVE, .period = period, .cost = period >= 20 ? 2 : 1};
    entry.name.length = 3;
    entry.name.bytes[0] = 't';
    entry.name.bytes[1] = (uint8_t)('0' + k / 10);
    entry.name.bytes[2] = (uint8_t)('0' + k % 10);
    return entry;
}

int main(int count, char **words) {
    uint64_t slots = count > 1 ? strtoull(words[1], NULL, 10) : 1000, taken, rows, quanta = 0, sum = 0;
    struct pfair_dispatcher d = PFAIR_NONE;
    struct pfair_step step = {0, 0, 0, 0};
    struct pfair_pick table[PROCESSORS];
    if (pfair_open(&d, PROCESSORS, 2520, slots, TASKS + 1)) return 1;
    for (uint64_t k = 0; k < TASKS; k++) {
        struct pfair_entry entry = arrival(k);
        if (pfair_take(&d, 0, (uint32_t)k + 1, &entry, &taken)) return 1;
    }
    for (uint8_t k = 0; k < PROCESSORS; k++) {
        struct pfair_entry entry = {.floor = slots};
        if (pfair_take(&d, k, k == 0 ? TASKS + 1 : 1, &entry, &taken)) return 1;
    }
    for (;;) {
        if (pfair_plan_next(&d, &step)) return 1;
        if (step.kind != PFAIR_STEP_PLANNED) break;
        if (pfair_table(&d, step.slot, &rows, table, PROCESSORS)) return 1;
        for (uint64_t k = 0; k < rows; k++) sum += table[k].index;
        quanta += rows;
    }
    printf("%" PRIu64 " quanta, sum %" PRIu64 "\n", quanta, sum);
    return pfair_close(&d) ? 1 : 0;
}
