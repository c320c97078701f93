/*
 * The time of each slot that a dispatcher plans, through the C library: latency PROCESSORS TASKS SLOTS|joins [RUNS]
 *
 * Tasks of load 0.94 that all arrive at slot 0 are planned from a fresh dispatcher, RUNS times (9 unless it says else), on one
 * processor of the machine if that can be had. The time of a slot is the least that it took in any run, in nanoseconds.
 * Writes the median, the times that 99 and 99.9 % of the slots after slot 0 don't pass, the greatest and its slot, and
 * the time of slot 0, which decides all arrivals.
 *
 * With RUNS 0 it plans once and marks the end of each slot for callgrind (bench/latency reads what that writes): the
 * memory of all slots is taken ahead, and at each 100th slot a task joins that leaves 100 slots later. With `joins` for
 * SLOTS as many tasks more join as there are at slot 0, one in a slot, with no memory ahead; the weights are the least.
 */
#define _GNU_SOURCE
#include "pfair.h"
#include <inttypes.h>
#include <sched.h>
#include <stdio.h>
#include <stdlib.h>
#include <string.h>
#include <time.h>
#if __has_include(<valgrind/callgrind.h>)
#include <valgrind/callgrind.h>
#else
#define CALLGRIND_ZERO_STATS
#define CALLGRIND_DUMP_STATS
#endif

enum { FRAME = 720720, MOST_PROCESSORS = 64, MOST_TASKS = 1000, KINDS = 10 };

static const uint64_t periods[KINDS] = {10, 11, 12, 13, 14, 15, 16, 18, 20, 21};

struct load {
    uint64_t processors, tasks, slots;
    uint64_t costs[MOST_TASKS];
};

static void give_up(const char *why) {
    fprintf(stderr, "latency: %s\n", why);
    exit(1);
}

static uint64_t period_of(uint64_t place) { return periods[place % KINDS]; }

/* A quantum in each period for every task, and a second one, task by task, while 0.94 of the processors isn't reached. */
static void share_out(struct load *load) {
    uint64_t room = load->processors * FRAME / 100 * 94;
    for (uint64_t cost = 1; cost <= 2; cost++)
        for (uint64_t place = 0; place < load->tasks; place++) {
            uint64_t units = FRAME / period_of(place);
            if (units > room && cost == 1) give_up("too many tasks for so few processors");
            if (units > room) return;
            load->costs[place] = cost;
            room -= units;
        }
}

static void say(struct pfair_dispatcher *d, uint64_t processor, uint32_t number, const struct pfair_entry *entry) {
    uint64_t taken;
    if (pfair_take(d, (uint8_t)processor, number, entry, &taken)) give_up("an entry is refused");
}

/* At each `every`th slot after slot 0 processor 0 says that the guest arrives, or that it departs again. */
static void open_with(struct pfair_dispatcher *d, const struct load *load, uint64_t every) {
    uint32_t numbers[MOST_PROCESSORS] = {0};
    if (pfair_open(d, (uint8_t)load->processors, FRAME, load->slots, 4096)) give_up("no dispatcher");
    for (uint64_t place = 0; place < load->tasks; place++) {
        char text[24];
        snprintf(text, sizeof text, "t%" PRIu64, place);
        struct pfair_entry entry = {.kind = PFAIR_KIND_ARRIVE, .name = pfair_name_of(text)};
        entry.cost = load->costs[place];
        entry.period = period_of(place);
        say(d, place % load->processors, ++numbers[place % load->processors], &entry);
    }
    for (uint64_t at = every; at < load->slots; at += every) {
        struct pfair_entry guest = {.floor = at, .at = at, .name = pfair_name_of("guest"), .cost = 1, .period = 20};
        guest.kind = at / every % 2 == 0 ? PFAIR_KIND_DEPART : PFAIR_KIND_ARRIVE;
        say(d, 0, ++numbers[0], &guest);
    }
    for (uint64_t k = 0; k < load->processors; k++) {
        struct pfair_entry closing = {.floor = load->slots};
        say(d, k, ++numbers[k], &closing);
    }
}

static uint64_t now(void) {
    struct timespec t;
    clock_gettime(CLOCK_MONOTONIC, &t);
    return (uint64_t)t.tv_sec * 1000000000 + (uint64_t)t.tv_nsec;
}

static void plan(struct pfair_dispatcher *d) {
    struct pfair_step step = {0, 0, 0, 0};
    if (pfair_plan_next(d, &step) || step.kind != PFAIR_STEP_PLANNED) give_up("a slot isn't planned");
}

static void time_run(const struct load *load, uint64_t *least) {
    struct pfair_dispatcher d = PFAIR_NONE;
    open_with(&d, load, load->slots);
    for (uint64_t slot = 0; slot < load->slots; slot++) {
        uint64_t begun = now();
        plan(&d);
        uint64_t took = now() - begun;
        if (took < least[slot]) least[slot] = took;
    }
    pfair_close(&d);
}

static void count_run(const struct load *load) {
    struct pfair_dispatcher d = PFAIR_NONE;
    open_with(&d, load, 100);
    if (pfair_reserve(&d, load->slots, load->tasks + 1)) give_up("out of memory");
    for (uint64_t slot = 0; slot < load->slots; slot++) {
        CALLGRIND_ZERO_STATS;
        plan(&d);
        CALLGRIND_DUMP_STATS;
    }
    pfair_close(&d);
}

static void count_joins(uint64_t processors, uint64_t tasks) {
    struct pfair_dispatcher d = PFAIR_NONE;
    uint32_t numbers[MOST_PROCESSORS] = {0};
    if (pfair_open(&d, (uint8_t)processors, FRAME, tasks + 1, 4096)) give_up("no dispatcher");
    for (uint64_t place = 0; place < 2 * tasks; place++) {
        uint64_t at = place < tasks ? 0 : place - tasks + 1;
        char text[24];
        snprintf(text, sizeof text, "t%" PRIu64, place);
        struct pfair_entry entry = {.floor = at, .at = at, .name = pfair_name_of(text), .cost = 1, .period = FRAME};
        entry.kind = PFAIR_KIND_ARRIVE;
        say(&d, place % processors, ++numbers[place % processors], &entry);
    }
    for (uint64_t k = 0; k < processors; k++) {
        struct pfair_entry closing = {.floor = tasks + 1};
        say(&d, k, ++numbers[k], &closing);
    }
    for (uint64_t slot = 0; slot <= tasks; slot++) {
        CALLGRIND_ZERO_STATS;
        plan(&d);
        CALLGRIND_DUMP_STATS;
    }
    pfair_close(&d);
}

static int by_time(const void *a, const void *b) {
    uint64_t x = *(const uint64_t *)a, y = *(const uint64_t *)b;
    return (x > y) - (x < y);
}

static void report(const struct load *load, uint64_t *least) {
    uint64_t greatest = 1, first = least[0], rest = load->slots - 1;
    for (uint64_t slot = 1; slot < load->slots; slot++)
        if (least[slot] > least[greatest]) greatest = slot;
    uint64_t most = least[greatest];
    qsort(least + 1, rest, sizeof *least, by_time);
    printf("%" PRIu64 " processors, %" PRIu64 " tasks, %" PRIu64 " slots: median %" PRIu64 ", 99 %% %" PRIu64 ", 99.9 %% %" PRIu64 ", greatest %" PRIu64 " (slot %" PRIu64 "), slot 0 %" PRIu64 " ns\n",
           load->processors, load->tasks, load->slots, least[1 + rest / 2], least[1 + rest * 99 / 100], least[1 + rest * 999 / 1000], most, greatest, first);
}

static int stay_on_one_processor(void) {
    cpu_set_t one;
    CPU_ZERO(&one);
    CPU_SET(sched_getcpu(), &one);
    return sched_setaffinity(0, sizeof one, &one);
}

int main(int count, char **words) {
    if (count < 4) give_up("PROCESSORS TASKS SLOTS|joins [RUNS]");
    if (!strcmp(words[3], "joins")) {
        count_joins(strtoull(words[1], NULL, 10), strtoull(words[2], NULL, 10));
        return 0;
    }
    struct load load = {strtoull(words[1], NULL, 10), strtoull(words[2], NULL, 10), strtoull(words[3], NULL, 10), {0}};
    uint64_t runs = count > 4 ? strtoull(words[4], NULL, 10) : 9;
    if (load.processors < 1 || load.processors > MOST_PROCESSORS || load.tasks < 1 || load.tasks > MOST_TASKS || load.slots < 2)
        give_up("1 to 64 processors, 1 to 1,000 tasks, 2 slots or more");
    share_out(&load);
    if (stay_on_one_processor()) fprintf(stderr, "latency: not kept on one processor of the machine\n");
    if (runs == 0) {
        count_run(&load);
        return 0;
    }
    uint64_t *least = malloc(load.slots * sizeof *least);
    if (!least) give_up("out of memory");
    for (uint64_t slot = 0; slot < load.slots; slot++) least[slot] = UINT64_MAX;
    for (uint64_t run = 0; run < runs; run++) time_run(&load, least);
    report(&load, least);
    free(least);
    return 0;
}
