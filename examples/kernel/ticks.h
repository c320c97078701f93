/* ticks.h: what the planner of a processor leaves for its ticks. They know neither its exchange nor its handle. */
#ifndef TICKS_H
#define TICKS_H
#include "tasks.h"

enum { AHEAD = 2 }; /* how many slots are planned before their ticks */

struct processor {
    struct turn turns[AHEAD]; /* that of slot t is turns[t % AHEAD], if t < ready */
    volatile uint64_t ready;  /* how many slots are planned: the planner raises it behind a turn */
    volatile uint64_t slot;   /* how many slots have begun: the tick raises it */
    struct task *running;     /* whose turn it is; NULL: nobody's, or it is lost */
    struct frame planner, idle, *on; /* `on` is where to save what runs now */
    uint64_t ticking[MOST_QUANTA];   /* time stamps that a tick took */
    uint8_t idle_stack[SMALL_STACK_SIZE] __attribute__((aligned(16)));
};
extern struct processor processors[PROCESSORS];
extern uint64_t limps_from;

/* A trial: from a given slot on processor 0 limps for so many slots. Its ticks come more than a slot late, and what it
   sends is lost. */
enum { LIMP = 24 };
static inline bool limps(unsigned number, uint64_t slot) {
    return number == 0 && slot - limps_from < LIMP;
}

#endif
