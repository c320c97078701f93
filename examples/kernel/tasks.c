/*
 * tasks.c: a thread for each task. It works, notes each turn that it gets, with the processor's own number, and ends
 * everything if it finds an SSE register changed, or itself on two processors.
 */
#include "tasks.h"

struct task tasks[MOST_TASKS];
struct cell record[MOST_QUANTA][PROCESSORS];

void note(uint64_t slot, const struct turn *turn, const char *lost) {
    struct cell *cell = &record[slot][this_processor()];
    if (atomic_fetch_add(&cell->times, 1) != 0) stop("a quantum was counted twice", slot);
    cell->turn = *turn;
    cell->lost = lost;
}

/* Interrupts are off, so that no tick comes before the note is whole. */
static void look_around(struct task *task) {
    uint64_t flags = interrupts_off();
    if (task->place != this_processor()) stop("a task runs on two processors", task->slot);
    if (!atomic_exchange(&task->is_noted, true)) note(task->slot, &task->turn, NULL);
    interrupts_as(flags);
}

static void be_task(void *itself) {
    struct task *task = itself;
    uint32_t settings = __builtin_ia32_stmxcsr();
    if (settings != 0x1f80) stop("a task begins with another MXCSR than after a reset", settings);
    for (;; task->rounds++) {
        look_around(task);
        uint64_t pattern = (uint64_t)task * 0x9e3779b97f4a7c15 + task->rounds;
        if (work(pattern, 1000) != 0) stop("a task found its registers changed", task->rounds);
        relax(); /* if one thread of the host emulates all processors, it goes on to the next one here */
    }
}

/* The frame of a thread that never ran: as if code(word) were called, with interrupts on and the SSE registers as after
   a reset. */
void make_frame(struct frame *frame, void (*code)(void *), void *word, uint8_t *stack_end) {
    frame->rip = (uint64_t)code;
    frame->rdi = (uint64_t)word;
    frame->rsp = (uint64_t)stack_end - 8;
    frame->cs = CODE64;
    frame->ss = DATA;
    frame->rflags = 0x202;
    frame->sse[0] = 0x7f; /* the control word of x87 is 0x37f */
    frame->sse[1] = 3;
    frame->sse[24] = 0x80; /* and MXCSR 0x1f80 */
    frame->sse[25] = 0x1f;
}

struct task *task_named(const struct pfair_name *name) {
    for (int k = 0; k < MOST_TASKS && tasks[k].name != NULL; k++) {
        struct pfair_name other = pfair_name_of(tasks[k].name);
        if (is_same_name(&other, name)) return &tasks[k];
    }
    return NULL;
}

void make_tasks(const struct announcement *table, unsigned rows) {
    unsigned count = 0;
    for (unsigned row = 0; row < rows; row++) {
        struct pfair_name name = pfair_name_of(table[row].name);
        if (table[row].kind != PFAIR_KIND_ARRIVE || task_named(&name) != NULL) continue;
        if (count == MOST_TASKS) stop("too many tasks", row);
        struct task *task = &tasks[count++];
        task->name = table[row].name;
        make_frame(&task->frame, be_task, task, task->stack + TASK_STACK);
    }
}
