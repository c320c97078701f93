/*
 * ticks.c: a tick looks up whose turn it is and switches. It calls nothing of the library, allocates nothing and never
 * waits. In the middle of the slot the planner (executive.c) goes on, until it gives way or the next tick comes.
 *
 * If the slot isn't planned yet, or the thread isn't saved yet where it ran last, the idle thread runs, and the turn is
 * lost. A task that runs in two slots in succession stays on its processor, so others have a whole slot to save it.
 */
#include "ticks.h"

struct processor processors[PROCESSORS];
uint64_t limps_from;

/* Takes a thread for a slot, unless it isn't saved yet where it ran last, or had a later slot. */
static bool take_thread(struct task *task, uint64_t slot) {
    uint_fast64_t before = atomic_load(&task->given), given = 2 * slot + 3;
    return before % 2 == 0 && before < given && atomic_compare_exchange_strong(&task->given, &before, given);
}

/* Ends the turn of the thread that ran, which is saved. */
static void end_turn(struct processor *p) {
    struct task *task = p->running;
    p->running = NULL;
    if (task == NULL) return;
    if (!atomic_load(&task->is_noted)) note(task->slot, &task->turn, "its thread had no time");
    atomic_fetch_sub(&task->given, 1);
}

static void begin_turn(struct processor *p, uint64_t slot, const struct turn *turn) {
    struct task *task = turn->task;
    if (task == NULL) return;
    if (!take_thread(task, slot)) {
        note(slot, turn, "its thread wasn't saved");
        return;
    }
    task->slot = slot;
    task->turn = *turn;
    task->place = this_processor();
    atomic_store(&task->is_noted, false);
    p->running = task;
}

/* Looks up whose turn it is. If the slot isn't planned yet, the planner notes later whose turn is lost. */
static void begin_slot(struct processor *p, uint64_t slot) {
    for (; p->slot < slot && p->slot < p->ready; p->slot++) {
        const struct turn *missed = &p->turns[p->slot % AHEAD];
        if (missed->task != NULL) note(p->slot, missed, "no tick came");
    }
    p->slot = slot + 1;
    if (slot < p->ready) begin_turn(p, slot, &p->turns[slot % AHEAD]);
}

static void await_tick(const struct processor *p) {
    uint64_t late = limps(this_processor(), p->slot) ? stamps_per_quantum * 5 / 4 : 0;
    arm_timer(TICK, boundary(p->slot) + late);
}

static void go_on(struct processor *p, struct frame *next, struct frame *frame) {
    p->on = next;
    *frame = *next;
}

/* switch.S gives these the frame of what was interrupted, and goes on with the frame that it finds then. */
void tick(struct frame *frame) {
    struct processor *p = &processors[this_processor()];
    uint64_t from = time_stamp(), slot = slot_by_clock();
    *lapic(LAPIC_EOI) = 0;
    if (slot < p->slot) { /* the timer is ahead of the time stamps */
        await_tick(p);
        return;
    }
    *p->on = *frame;
    end_turn(p);
    begin_slot(p, slot);
    go_on(p, p->running == NULL ? &p->idle : &p->running->frame, frame);
    arm_timer(PLAN, boundary(slot) + stamps_per_quantum / 2);
    if (slot < MOST_QUANTA) p->ticking[slot] = time_stamp() - from;
}

void plan_tick(struct frame *frame) {
    struct processor *p = &processors[this_processor()];
    *lapic(LAPIC_EOI) = 0;
    *p->on = *frame;
    go_on(p, &p->planner, frame);
    await_tick(p);
}

void turn_back(struct frame *frame) {
    struct processor *p = &processors[this_processor()];
    p->planner = *frame;
    go_on(p, p->running == NULL ? &p->idle : &p->running->frame, frame);
}
