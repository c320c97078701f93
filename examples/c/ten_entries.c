/*
 * Ten entries of two processors, planned by two dispatchers.
 *
 *   ten_entries tables|decisions
 *
 * Each dispatcher takes the log of one processor, in any order; then they absorb one another, and plan the same slots.
 * The output is the rows of examples/two_processors.replay or examples/two_processors.decisions. Exit status: 0; 1 if
 * a call answers otherwise; 2 for other words on the command line; 4 if an allocation fails.
 */
#include "pfair.h"
#include <inttypes.h>
#include <stdio.h>
#include <stdlib.h>
#include <string.h>

enum { PROCESSORS = 2, FRAME = 6, SLOTS = 6, CAPACITY = 5, ROOM = 8 };

static struct pfair_dispatcher dispatchers[PROCESSORS] = {PFAIR_NONE, PFAIR_NONE};

static void close_all(void) {
    for (int k = 0; k < PROCESSORS; k++) pfair_close(&dispatchers[k]);
}

/* Ends the program if a call didn't answer 0. */
static void must(uint32_t answer) {
    if (answer == PFAIR_DONE) return;
    fprintf(stderr, "ten_entries: answer %" PRIu32 "\n", answer);
    exit(answer == PFAIR_MEMORY ? 4 : 1);
}

static struct pfair_entry nothing(uint64_t floor) {
    struct pfair_entry entry = {.floor = floor, .kind = PFAIR_KIND_NOTHING};
    return entry;
}

static struct pfair_entry arrive(uint64_t floor, uint64_t at, const char *name, uint64_t cost, uint64_t period) {
    struct pfair_entry entry = {.floor = floor, .kind = PFAIR_KIND_ARRIVE, .at = at, .cost = cost, .period = period};
    entry.name = pfair_name_of(name);
    return entry;
}

static struct pfair_entry depart(uint64_t floor, uint64_t at, const char *name) {
    struct pfair_entry entry = {.floor = floor, .kind = PFAIR_KIND_DEPART, .at = at};
    entry.name = pfair_name_of(name);
    return entry;
}

static struct pfair_entry late(uint64_t floor, uint64_t at, const char *name, uint64_t index, uint64_t by) {
    struct pfair_entry entry = {.floor = floor, .kind = PFAIR_KIND_LATE, .at = at, .index = index, .by = by};
    entry.name = pfair_name_of(name);
    return entry;
}

/* Each dispatcher takes one log, the last entry first, and each entry twice: losses, repeats and order don't matter. */
static void take_logs(void) {
    struct pfair_entry logs[PROCESSORS][CAPACITY] = {
        {arrive(0, 0, "a", 1, 2), arrive(0, 0, "b", 2, 3), depart(2, 2, "a"), nothing(4), nothing(6)},
        {arrive(0, 0, "c", 1, 3), arrive(1, 3, "d", 1, 2), late(3, 4, "b", 4, 2), nothing(5), nothing(6)},
    };
    for (uint8_t k = 0; k < PROCESSORS; k++)
        for (uint32_t number = CAPACITY; number >= 1; number--)
            for (uint64_t again = 0; again < 2; again++) {
                uint64_t taken = PFAIR_TAKEN_TORN;
                must(pfair_take(&dispatchers[k], k, number, &logs[k][number - 1], &taken));
                must(taken == (again ? PFAIR_TAKEN_KNOWN : PFAIR_TAKEN_NEW) ? PFAIR_DONE : PFAIR_TORN);
            }
}

/* Plans all that is settled. A plan that is refused memory is tried once more. */
static void plan_all(struct pfair_dispatcher *d) {
    struct pfair_step step = {PFAIR_STEP_PLANNED, 0, 0, 0};
    while (step.kind == PFAIR_STEP_PLANNED) {
        uint32_t answer = pfair_plan_next(d, &step);
        if (answer == PFAIR_MEMORY) {
            must(pfair_reopen(d));
            answer = pfair_plan_next(d, &step);
        }
        must(answer);
    }
}

static void write_name(const struct pfair_name *name) {
    fwrite(name->bytes, 1, (size_t)name->length, stdout);
}

static void write_table(struct pfair_dispatcher *d, uint64_t slot) {
    struct pfair_pick rows[PROCESSORS];
    uint64_t count;
    must(pfair_table(d, slot, &count, rows, PROCESSORS));
    for (uint64_t k = 0; k < count; k++) {
        printf("%" PRIu64 ",%" PRIu64 ",", slot, k);
        write_name(&rows[k].name);
        printf(",%" PRIu64 "\n", rows[k].index);
    }
}

static void write_decisions(struct pfair_dispatcher *d, uint64_t slot) {
    static const char *const outcomes[] = {"admitted", "departing", "delayed"};
    struct pfair_decision rows[ROOM];
    uint64_t count;
    must(pfair_decisions(d, slot, slot + 1, &count, rows, ROOM));
    for (uint64_t k = 0; k < count; k++) {
        uint64_t outcome = rows[k].outcome;
        printf("%" PRIu64 ",%" PRIu64 ",%" PRIu64 ",", rows[k].slot, rows[k].processor, rows[k].number);
        write_name(&rows[k].name);
        printf(",%s,", outcome < 3 ? outcomes[outcome] : "refused");
        if (outcome == PFAIR_OUTCOME_DEPARTING) printf("%" PRIu64 "\n", rows[k].freed_at);
        else if (outcome < 3) printf("-\n");
        else printf("%" PRIu64 "\n", outcome);
    }
}

int main(int count, char **words) {
    bool tables = count == 2 && strcmp(words[1], "tables") == 0;
    bool decisions = count == 2 && strcmp(words[1], "decisions") == 0;
    uint64_t planned = 0;
    if (!tables && !decisions) {
        fprintf(stderr, "usage: ten_entries tables|decisions\n");
        return 2;
    }
    atexit(close_all);
    for (int k = 0; k < PROCESSORS; k++) must(pfair_open(&dispatchers[k], PROCESSORS, FRAME, SLOTS, CAPACITY));
    take_logs();
    must(pfair_absorb(&dispatchers[0], &dispatchers[1]));
    must(pfair_absorb(&dispatchers[1], &dispatchers[0]));
    for (int k = 0; k < PROCESSORS; k++) plan_all(&dispatchers[k]);
    /* the two agree: one writes the even slots, the other the odd ones */
    printf(tables ? "slot,processor,task,index\n" : "slot,processor,number,task,outcome,value\n");
    must(pfair_next_slot(&dispatchers[0], &planned));
    for (uint64_t slot = 0; slot < planned; slot++) (tables ? write_table : write_decisions)(&dispatchers[slot % 2], slot);
    return 0;
}
