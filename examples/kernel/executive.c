/*
 * executive.c: an executive on bare metal. No master decides: on each processor a planner, a thread with a dispatcher
 * of its own, plans slots before their ticks, and leaves whose turn it is there.
 *
 * Only the planner uses the dispatcher's handle. So a tick (ticks.c) may come at any time, also during a call of the
 * library.
 */
#include "../executive/exchange.h"
#include "announcements.h"
#include "ticks.h"

_Static_assert(PROCESSORS == MOST_PROCESSORS, "layout.h and announcement.h differ");
_Static_assert(AHEAD + FLOOR_EVERY + 5 + 1 <= LEAD, "messages may take 5 slots, and an answer 1");

static struct planner {
    struct exchange exchange;
    uint64_t planning[MOST_QUANTA]; /* time stamps that the plan of a slot took */
} planners[PROCESSORS];

static unsigned machine; /* the number of processors */
static uint64_t quanta, quantum; /* quantum: in microseconds */
static atomic_uint awake, ready, over;

/* A planner looks in each slot what came, so nobody wakes it. */
void give_hint(unsigned processor) {
    (void)processor;
}

/* ---- a planner */
/* Whose turn the planned slot is here. */
static struct turn turn_in(struct exchange *x, uint64_t slot) {
    struct pfair_pick rows[PROCESSORS];
    uint8_t places[PROCESSORS];
    uint64_t count;
    struct turn turn = {0};
    must(pfair_table(&x->dispatcher, slot % RUN, &count, rows, PROCESSORS));
    must(pfair_places(&x->dispatcher, slot % RUN, &count, places, PROCESSORS));
    for (uint64_t row = 0; row < count; row++) {
        struct task *task = task_named(&rows[row].name);
        if (task == NULL) stop("a table names a stranger", row);
        uint64_t index = whole_index(x, &rows[row]);
        if (places[row] == x->number) turn = (struct turn){task, row, index};
    }
    return turn;
}

/* Leaves a turn for its tick. Answers whether that came before, and so found none. */
static bool leave_turn(struct processor *p, uint64_t slot, const struct turn *turn) {
    uint64_t flags = interrupts_off();
    bool is_late = p->slot > slot;
    p->turns[slot % AHEAD] = *turn;
    p->ready = slot + 1;
    interrupts_as(flags);
    return is_late;
}

/* Plans the next slot, if what came settles it. */
static bool plan_slot(unsigned number) {
    struct exchange *x = &planners[number].exchange;
    struct processor *p = &processors[number];
    uint64_t slot = p->ready, from = time_stamp();
    if (!is_planned(x, slot)) return false;
    planners[number].planning[slot] = time_stamp() - from;
    struct turn turn = turn_in(x, slot);
    if (leave_turn(p, slot, &turn) && turn.task != NULL) note(slot, &turn, "it wasn't settled");
    leave(x, slot);
    return true;
}

/* Sends, hears, and announces by the clock: others go on, also if this one can't plan. */
static void talk(struct exchange *x, uint64_t now) {
    x->is_silent = limps(x->number, now);
    announce(x, announcements, ANNOUNCEMENTS, now);
    serve(x, now);
}

static _Noreturn void end(unsigned number);

static _Noreturn void be_planner(unsigned number) {
    struct processor *p = &processors[number];
    for (;;) {
        talk(&planners[number].exchange, slot_by_clock());
        while (p->ready < quanta && p->ready < p->slot + AHEAD && plan_slot(number)) {}
        if (p->ready == quanta && p->slot > quanta) end(number);
        __asm__ volatile("int %0" : : "i"(REST) : "memory");
    }
}

/* ---- the end */
/* Prints the turns of all threads that ran, as they noted them; and with the other notes those that were lost. */
static void print_rows(void) {
    put_out(ROWS, "slot,processor,task,index,place\n");
    for (uint64_t slot = 0; slot < quanta; slot++)
        for (uint64_t row = 0; row < machine; row++)
            for (uint64_t place = 0; place < machine; place++) {
                const struct cell *cell = &record[slot][place];
                const struct turn *turn = &cell->turn;
                if (turn->task == NULL || turn->row != row) continue;
                uint16_t port = cell->lost == NULL ? ROWS : NOTES;
                put_out(port, "%u,%u,%s,%u,%u", slot, row, turn->task->name, turn->index, place);
                put_out(port, cell->lost == NULL ? "\n" : " lost: %s\n", cell->lost);
            }
}

static void print_times(const char *what, const uint64_t *times) {
    uint64_t least = UINT64_MAX, most = 0;
    for (uint64_t slot = 0; slot < quanta; slot++) {
        if (times[slot] != 0 && times[slot] < least) least = times[slot];
        if (times[slot] > most) most = times[slot];
    }
    put_out(NOTES, "%s %u to %u, ", what, least, most);
}

/* How deep a stack got: at first it is all zeros. */
static void print_depth(const char *what, const uint8_t *stack, uint64_t size) {
    uint64_t unused = 0;
    while (unused < size && stack[unused] == 0) unused++;
    put_out(NOTES, "%s %u, ", what, size - unused);
}

static void print_notes(void) {
    put_out(NOTES, "a quantum has %u time stamps\n", stamps_per_quantum);
    for (unsigned k = 0; k < machine; k++) {
        const struct exchange *x = &planners[k].exchange;
        put_out(NOTES, "processor %u: time stamps: ", (uint64_t)k);
        print_times("ticks", processors[k].ticking);
        print_times("plans", planners[k].planning);
        put_out(NOTES, "bytes of stack: ");
        print_depth("ticks", tick_stacks[k], SMALL_STACK_SIZE);
        print_depth("planner", stacks[k], STACK_SIZE);
        put_out(NOTES, "entries: %u said, %u heard, %u of these again, ", x->said, x->heard, x->known);
        put_out(NOTES, "messages: %u lost, %u requests\n", x->lost, x->asked);
    }
}

/* A processor that is through serves the others until they are, too. The first one then prints. */
static _Noreturn void end(unsigned number) {
    interrupts_off();
    atomic_fetch_add(&over, 1);
    for (; atomic_load(&over) != machine; relax()) talk(&planners[number].exchange, slot_by_clock());
    if (number == 0) {
        print_rows();
        print_notes();
        power_off(16);
    }
    for (;;) __asm__ volatile("hlt");
}

/* ---- the beginning */
/* The next number of the command line. */
static uint64_t number_of(const char **line) {
    uint64_t number = 0;
    for (; **line == ' '; ++*line) {}
    for (; **line >= '0' && **line <= '9'; ++*line) number = number * 10 + (uint64_t)(**line - '0');
    return number;
}

static void begin_first(const uint32_t *note) {
    if (note[0] != 0x336ec578) stop("no loader's note", note[0]);
    if (!is_new_enough()) stop("the processor lacks a part of x86-64-v2, for which the library is made", 0);
    const char *line = (const char *)(uintptr_t)note[6];
    machine = (unsigned)number_of(&line);
    quanta = number_of(&line);
    quantum = number_of(&line);
    limps_from = number_of(&line);
    if (limps_from == 0) limps_from = MOST_QUANTA;
    bool is_in_range = machine >= 1 && machine <= PROCESSORS && quanta >= 1 && quanta <= MOST_QUANTA && quantum >= 1;
    if (!is_in_range) stop("a number is out of its range", 0);
    make_tasks(announcements, ANNOUNCEMENTS);
    make_gates();
}

static void wake_others(void) {
    measure_time();
    stamps_per_quantum = quantum * stamps_per_millisecond / 1000;
    for (unsigned k = 1; k < machine; k++) {
        wake_processor(k);
        while (atomic_load(&awake) != k + 1) relax();
    }
}

static void be_idle(void *nothing) {
    (void)nothing;
    for (;;) __asm__ volatile("hlt");
}

/* Plans slot 0, at which all is announced at once. Slots begin when all processors have planned it. */
static void begin_slots(unsigned number) {
    struct exchange *x = &planners[number].exchange;
    for (talk(x, 0); !plan_slot(number); talk(x, 0)) {
        wait_milliseconds(1);
        relax();
        x->asked_at = UINT64_MAX; /* it asks again */
    }
    atomic_fetch_add(&ready, 1);
    for (; atomic_load(&epoch) == 0; relax()) {
        talk(x, 0);
        if (number == 0 && atomic_load(&ready) == machine) atomic_store(&epoch, time_stamp() + stamps_per_millisecond);
    }
}

/* boot.S calls this on each processor. */
_Noreturn void begin(const uint32_t *note, unsigned number) {
    struct processor *p = &processors[number];
    if (number == 0) begin_first(note);
    begin_processor(number);
    atomic_fetch_add(&awake, 1);
    if (number == 0) wake_others();
    begin_exchange(&planners[number].exchange, number, machine, FRAME, quanta);
    make_frame(&p->idle, be_idle, NULL, p->idle_stack + sizeof p->idle_stack);
    p->on = &p->planner;
    begin_slots(number);
    arm_timer(TICK, boundary(0));
    interrupts_as(0x202);
    be_planner(number);
}
