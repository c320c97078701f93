/* tasks.h: the threads that the executive lets run. */
#ifndef TASKS_H
#define TASKS_H
#include "../executive/announcement.h"
#include "machine.h"

enum { TASK_STACK = 4096 };

/* A quantum of a slot: whose it is (NULL: nobody's), its row in the slot's table, and its index. */
struct turn {
    struct task *task;
    uint64_t row, index;
};

struct task {
    struct frame frame; /* while it doesn't run */
    const char *name;
    atomic_uint_fast64_t given; /* 2 * (the last slot that it was given + 1), and one more while it runs in it */
    uint64_t slot;              /* that, with the turn and the processor */
    struct turn turn;
    unsigned place;
    atomic_bool is_noted; /* whether it noted this turn */
    uint64_t rounds;
    uint8_t stack[TASK_STACK] __attribute__((aligned(16)));
};

/* What became of a processor's turn in a slot. */
struct cell {
    atomic_uint times;
    struct turn turn;
    const char *lost; /* why it was lost; NULL if the thread ran */
};

extern struct task tasks[MOST_TASKS];
extern struct cell record[MOST_QUANTA][PROCESSORS];
void note(uint64_t slot, const struct turn *turn, const char *lost);      /* of this processor */
void make_frame(struct frame *frame, void (*code)(void *), void *word, uint8_t *stack_end);
void make_tasks(const struct announcement *table, unsigned rows); /* a thread for each name that arrives */
struct task *task_named(const struct pfair_name *name);

#endif
