/*
 * ticks.h: tasks as threads of POSIX, and the ticks of a processor. A tick looks up whose turn it is and switches. It
 * calls nothing of the library, allocates nothing, and waits for no message and no other processor.
 *
 * If the slot isn't planned yet, or the thread isn't saved yet where it ran last, nothing runs, and the turn is lost. A
 * task that runs in two slots in succession stays on its processor, so others have a whole slot to save it. If a tick
 * comes late, so do those behind it, until they have caught up: their turns are shorter.
 *
 * No thread of POSIX can stop another one. So a tick saves a thread by telling it that its turn is over, and by waiting
 * until it has seen that and stands still.
 */
#ifndef TICKS_H
#define TICKS_H
#include "announcement.h"
#include <errno.h>
#include <pthread.h>
#include <sched.h>
#include <stdatomic.h>
#include <time.h>

enum { AHEAD = 2 }; /* how many slots are planned before their ticks */

/* A quantum of a slot: whose it is (NULL: nobody's), its row in the slot's table, its index, and its place. */
struct turn {
    struct task *task;
    uint64_t row, index;
    unsigned place;
};

struct task {
    const char *name;
    pthread_t thread;
    pthread_mutex_t lock;
    pthread_cond_t changed;
    atomic_uint_fast64_t given; /* 2 * (the last slot that it was given + 1), and one more until it is saved */
    atomic_bool may_run;
    bool is_told, is_over;
    uint64_t slot; /* the one whose turn this is */
    struct turn turn;
    uint64_t work;
};

/* What became of a turn. */
static struct cell {
    atomic_uint times;
    struct turn turn;
    const char *lost; /* why it was lost; NULL if the thread ran */
} record[MOST_QUANTA][MOST_PROCESSORS];

/* What a processor's planner leaves for its ticks. */
struct processor {
    struct turn turns[AHEAD]; /* that of slot t is turns[t % AHEAD], if t < ready */
    uint64_t ready;           /* how many slots are planned */
    uint64_t slot;            /* how many slots have begun */
    struct task *running;     /* whose turn it is; NULL: nobody's, or it is lost */
    double waking[MOST_QUANTA], looking[MOST_QUANTA]; /* in microseconds */
};

_Noreturn void stop(const char *what, uint64_t number);

static unsigned machine = 2; /* the number of processors */
static uint64_t quanta = 600, quantum = 5000; /* quantum: in microseconds */
static struct timespec begin;
static cpu_set_t allowed;

/* ---- the clock and the host's processors */

static struct timespec after(struct timespec from, uint64_t microseconds) {
    uint64_t ns = (uint64_t)from.tv_nsec + microseconds * 1000;
    return (struct timespec){from.tv_sec + (time_t)(ns / 1000000000), (long)(ns % 1000000000)};
}

static struct timespec now(void) {
    struct timespec time;
    clock_gettime(CLOCK_MONOTONIC, &time);
    return time;
}

static double microseconds_since(struct timespec from) {
    struct timespec to = now();
    return (double)(to.tv_sec - from.tv_sec) * 1e6 + (double)(to.tv_nsec - from.tv_nsec) / 1e3;
}

static struct timespec boundary(uint64_t slot) {
    return after(begin, slot * quantum);
}

static uint64_t slot_by_clock(void) {
    double since = microseconds_since(begin);
    return since < 0 ? 0 : (uint64_t)since / quantum;
}

static void sleep_until(struct timespec due) {
    while (clock_nanosleep(CLOCK_MONOTONIC, TIMER_ABSTIME, &due, NULL) == EINTR) {}
}

/* Binds the thread to that processor, if there are enough of them. */
static void pin(pthread_t thread, unsigned number) {
    cpu_set_t one;
    int cpu = 0;
    if ((unsigned)CPU_COUNT(&allowed) < machine) return;
    for (unsigned left = number;; cpu++)
        if (CPU_ISSET(cpu, &allowed) && left-- == 0) break;
    CPU_ZERO(&one);
    CPU_SET(cpu, &one);
    pthread_setaffinity_np(thread, sizeof one, &one);
}

static bool first_in_first_out(pthread_t thread, int priority) {
    struct sched_param parameters = {.sched_priority = priority};
    return pthread_setschedparam(thread, SCHED_FIFO, &parameters) == 0;
}

/* ---- tasks */

static void note(uint64_t slot, const struct turn *turn, const char *lost) {
    struct cell *cell = &record[slot][turn->place];
    if (atomic_fetch_add(&cell->times, 1) != 0) stop("a quantum was counted twice", slot);
    cell->turn = *turn;
    cell->lost = lost;
}

/* Works until its turn is over, and rests half of the time: if these threads left the host's other ones no time, Linux
   would stop them for up to 50 ms at once. */
static void work(struct task *task) {
    while (atomic_load(&task->may_run)) {
        struct timespec from = now();
        while (atomic_load(&task->may_run) && microseconds_since(from) < 100) task->work++;
        sleep_until(after(now(), 100));
    }
}

static void *be_task(void *itself) {
    struct task *task = itself;
    pthread_mutex_lock(&task->lock);
    for (;;) {
        while (!task->is_told && !task->is_over) pthread_cond_wait(&task->changed, &task->lock);
        if (task->is_over) break;
        note(task->slot, &task->turn, NULL);
        pthread_mutex_unlock(&task->lock);
        work(task);
        pthread_mutex_lock(&task->lock);
        task->is_told = false;
        atomic_fetch_sub(&task->given, 1);
        pthread_cond_broadcast(&task->changed);
    }
    pthread_mutex_unlock(&task->lock);
    return NULL;
}

/* ---- ticks */

/* Leaves a turn for its tick. Answers whether that came before, and so found none. */
static bool leave_turn(struct processor *p, uint64_t slot, const struct turn *turn) {
    p->turns[slot % AHEAD] = *turn;
    p->ready = slot + 1;
    return p->slot > slot;
}

/* Takes a thread for a slot, unless it isn't saved yet where it ran last, or had a later slot. */
static bool take_thread(struct task *task, uint64_t slot) {
    uint_fast64_t before = atomic_load(&task->given), given = 2 * slot + 3;
    return before % 2 == 0 && before < given && atomic_compare_exchange_strong(&task->given, &before, given);
}

/* Ends the turn of the thread that runs, which is saved then. */
static void end_turn(struct processor *p) {
    struct task *task = p->running;
    p->running = NULL;
    if (task == NULL) return;
    atomic_store(&task->may_run, false);
    pthread_mutex_lock(&task->lock);
    while (task->is_told) pthread_cond_wait(&task->changed, &task->lock);
    pthread_mutex_unlock(&task->lock);
}

/* Looks up whose turn it is. If the slot isn't planned yet, the planner notes later whose turn is lost. */
static const struct turn *look_up(struct processor *p, uint64_t slot) {
    const struct turn *turn = &p->turns[slot % AHEAD];
    p->slot = slot + 1;
    if (slot >= p->ready || turn->task == NULL) return NULL;
    if (take_thread(turn->task, slot)) return turn;
    note(slot, turn, "its thread wasn't saved");
    return NULL;
}

static void begin_turn(struct processor *p, unsigned number, uint64_t slot, const struct turn *turn) {
    struct task *task = p->running = turn->task;
    pin(task->thread, number);
    pthread_mutex_lock(&task->lock);
    task->slot = slot;
    task->turn = *turn;
    atomic_store(&task->may_run, true);
    task->is_told = true;
    pthread_cond_broadcast(&task->changed);
    pthread_mutex_unlock(&task->lock);
}

static void tick(struct processor *p, unsigned number, uint64_t slot) {
    p->waking[slot] = microseconds_since(boundary(slot));
    end_turn(p);
    struct timespec from = now();
    const struct turn *turn = look_up(p, slot);
    p->looking[slot] = microseconds_since(from);
    if (turn != NULL) begin_turn(p, number, slot, turn);
}

#endif
