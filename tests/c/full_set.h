/*
 * A set that fills its processors, for the tests that plan many slots of it, and one number of what is planned of a slot.
 */
#ifndef FULL_SET_H
#define FULL_SET_H
#include "checks.h"
#include <limits.h>

enum { PROCESSORS = 8, SHORT = 100, TASKS = 120, FRAME = 5040 };

/* A set whose load is 7.87, all of which arrives at slot 0. The last 20 tasks have windows of 64 slots at first and of
   65 then, so that they wait among the keys of late deadlines from slot 63 on. One subtask comes late, which is announced
   at the slot `late_at`. All logs are whole. */
static void filled(struct pfair_dispatcher *d, uint64_t slots, uint64_t late_at) {
    static const uint64_t costs[] = {1, 1, 1, 1, 1, 2, 2, 2, 2, 2}, periods[] = {12, 14, 15, 16, 18, 20, 21, 24, 28, 30};
    uint32_t numbers[PROCESSORS] = {0};
    uint64_t taken;
    char name[20];
    ANSWERS(0, pfair_open(d, PROCESSORS, FRAME, slots, 20));
    for (int k = 0; k < TASKS; k++) {
        int p = k % PROCESSORS;
        snprintf(name, sizeof name, "t%d", k);
        uint64_t cost = k < SHORT ? costs[k % 10] : 79, period = k < SHORT ? periods[k % 10] : FRAME;
        ANSWERS(0, take(d, p, ++numbers[p], arrive(name, cost, period, 0), &taken));
    }
    struct pfair_entry comes_late = late("t3", late_at / 16 + 2, 5, late_at);
    comes_late.floor = late_at;
    ANSWERS(0, take(d, 0, ++numbers[0], comes_late, &taken));
    for (int p = 0; p < PROCESSORS; p++) ANSWERS(0, take(d, p, ++numbers[p], nothing(1000000), &taken));
}

/* From now on no memory is given. */
static void refuse_all(void) {
    refuse(1, LONG_MAX - 1);
}

static uint64_t mixed(uint64_t sum, uint64_t more) {
    return (sum ^ more) * 1099511628211ull;
}

/* One number of the table and the places of a slot. */
static uint64_t digest(struct pfair_dispatcher *d, uint64_t slot) {
    struct pfair_pick picks[PROCESSORS];
    uint8_t places[PROCESSORS];
    uint64_t count, sum;
    ANSWERS(0, pfair_table(d, slot, &count, picks, PROCESSORS));
    ANSWERS(0, pfair_places(d, slot, &count, places, PROCESSORS));
    sum = mixed(14695981039346656037ull, count);
    for (uint64_t k = 0; k < count; k++) {
        for (uint64_t j = 0; j < picks[k].name.length; j++) sum = mixed(sum, picks[k].name.bytes[j]);
        sum = mixed(mixed(sum, picks[k].index), places[k]);
    }
    return sum;
}

static void plan_one(struct pfair_dispatcher *d, uint64_t slot) {
    struct pfair_step s;
    ANSWERS(0, pfair_plan_next(d, &s));
    CHECK(s.kind == PFAIR_STEP_PLANNED && s.slot == slot, "slot %" PRIu64, slot);
}
#endif
