/*
 * A time-triggered executive: it runs the static table that scripts/cycle makes of a task file, cycle after cycle.
 *
 *   scripts/cycle FILE > cycle.h
 *   cc -I . -o cyclic examples/c/cyclic.c
 *   ./cyclic FIRST STOP
 *
 * No scheduler runs and no library is linked: the timer of each processor calls on_tick, which looks up the task. Here
 * a loop stands for the timers. It runs from slot 0 on, and writes the quanta of slots FIRST to STOP - 1 as `pfair
 * replay --affinity` does, without the row in PD2 order. Each task counts its quanta, which finds a table that skips a
 * subtask or has it twice. Exit status: 0; 1 if there is such a subtask; 2 for other words.
 */
#include "cycle.h"
#include <errno.h>
#include <inttypes.h>
#include <stdbool.h>
#include <stdio.h>
#include <stdlib.h>

/* The tasks, by their numbers in the table; the last stands for none, and never runs. */
static struct task {
    uint64_t had; /* quanta */
} tasks[CYCLE_TASKS + 1];

static uint64_t first, stop; /* the slots whose quanta are written */

/* Lets a task run for a quantum: a kernel switches to its stack here. Returns whether its subtask is the next one. */
static bool run(uint64_t task, uint64_t index, uint64_t slot, uint64_t processor) {
    if (slot >= first)
        printf("%" PRIu64 ",%s,%" PRIu64 ",%" PRIu64 "\n", slot, cycle_name[task], index, processor);
    tasks[task].had++;
    return tasks[task].had == index;
}

/* What the timer of a processor calls at the beginning of each slot: the lines of a dispatcher. */
static bool on_tick(uint64_t slot, uint64_t processor) {
    uint64_t row = slot % CYCLE_SLOTS, cycle = slot / CYCLE_SLOTS;
    uint64_t task = cycle_task[row][processor];
    if (task == CYCLE_IDLE) return true;
    return run(task, cycle_index[row][processor] + cycle * cycle_quanta[task], slot, processor);
}

/* Whether a word is a whole number. */
static bool read_number(const char *word, uint64_t *number) {
    char *end;
    errno = 0;
    *number = strtoull(word, &end, 10);
    return *word >= '0' && *word <= '9' && *end == '\0' && errno == 0;
}

int main(int count, char **words) {
    if (count != 3 || !read_number(words[1], &first) || !read_number(words[2], &stop)) {
        fprintf(stderr, "usage: cyclic FIRST STOP\n");
        return 2;
    }
    printf("slot,task,index,place\n");
    for (uint64_t slot = 0; slot < stop; slot++)
        for (uint64_t processor = 0; processor < CYCLE_PROCESSORS; processor++)
            if (!on_tick(slot, processor)) {
                fprintf(stderr, "cyclic: slot %" PRIu64 ": a subtask isn't the task's next one\n", slot);
                return 1;
            }
    return 0;
}
