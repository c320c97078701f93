/*
 * An executive in small: one dispatcher thread for each processor drives real threads, quantum by quantum.
 *
 *   executive run|file [PROCESSORS [QUANTA [MICROSECONDS]]]        else 2 processors, 600 quanta of 5,000 microseconds
 *   executive run PROCESSORS QUANTA MICROSECONDS lose PROCESSOR SLOT
 *
 * No master decides. The thread of a processor keeps a dispatcher of its own, announces some slots ahead, and receives
 * the entries of the others: late, out of order, twice, and now and then not at all (../executive/exchange.h). In the
 * first half of a slot it plans the next ones, and leaves there whose turn it is. At each quantum's boundary it only
 * looks that up, and switches (../executive/ticks.h). After each 200 quanta it begins the next run, and the rows are
 * still those of one long run. ../kernel is the same executive on bare metal.
 *
 * `run` writes who really ran in which slot, as the tasks noted it, in the form of `pfair replay --affinity`; and on
 * standard error which quanta are lost, how late ticks began, how long they looked up, and what became of messages.
 * `file` writes the task file of the same announcements. With `lose` that processor's thread ends at the slot. The
 * others close its log and go on; the rows lack what it would have run until then, and standard error has the slot at
 * which a task `down` of weight 1 arrives.
 * Exit status: 0; 1 if something was wrong; 2 for other words on the command line; 3 if an entry never came.
 */
#define _GNU_SOURCE
#include "../executive/succession.h"
#include "../executive/task_file.h"
#include "../executive/ticks.h"
#include <inttypes.h>
#include <semaphore.h>
#include <stdio.h>
#include <stdlib.h>
#include <string.h>
#include <unistd.h>

enum { FRAME = 60, PATIENCE = 20000000 }; /* how long after its tick a slot may wait for an entry, in microseconds */
_Static_assert(AHEAD + FLOOR_EVERY + 5 + 1 <= LEAD, "messages may take 5 slots, and an answer 1");

/* What is announced, in the order of the stamps. Stamps and indexes are those of one long run. A late release of a later
   run is stamped LEAD slots after that has begun, or later. */
static const struct announcement announcements[] = {
    {0, 0, PFAIR_KIND_ARRIVE, "control", 1, 2, 0, 0, 0},   {1, 0, PFAIR_KIND_ARRIVE, "vision", 2, 3, 0, 0, 0},
    {0, 0, PFAIR_KIND_ARRIVE, "logger", 1, 5, 0, 0, 0},    {1, 0, PFAIR_KIND_ARRIVE, "radio", 2, 8, 1, 0, 0},
    {0, 1, PFAIR_KIND_ARRIVE, "radio", 1, 4, 1, 0, 0},     {1, 20, PFAIR_KIND_LATE, "control", 0, 0, 0, 15, 3},
    {0, 40, PFAIR_KIND_DEPART, "vision", 0, 0, 0, 0, 0},   {0, 50, PFAIR_KIND_ARRIVE, "vision", 3, 4, 0, 0, 0},
    {1, 60, PFAIR_KIND_ARRIVE, "burst", 3, 10, 0, 0, 0},   {0, 62, PFAIR_KIND_ARRIVE, "extra", 1, 2, 0, 0, 0},
    {1, 120, PFAIR_KIND_DEPART, "burst", 0, 0, 0, 0, 0},   {0, 130, PFAIR_KIND_ARRIVE, "extra", 3, 10, 1, 0, 0},
    {0, 150, PFAIR_KIND_LATE, "vision", 0, 0, 0, 80, 2},
    /* across the end of a run: a subtask of control is late, vision departs and is freed at 201, and logger at 400 */
    {1, 190, PFAIR_KIND_LATE, "control", 0, 0, 0, 100, 2}, {1, 198, PFAIR_KIND_DEPART, "vision", 0, 0, 0, 0, 0},
    {0, 200, PFAIR_KIND_ARRIVE, "vision", 1, 2, 0, 0, 0},  {0, 201, PFAIR_KIND_ARRIVE, "vision", 2, 3, 0, 0, 0},
    {1, 250, PFAIR_KIND_LATE, "control", 0, 0, 0, 125, 1}, {1, 290, PFAIR_KIND_DEPART, "extra", 0, 0, 0, 0, 0},
    {0, 310, PFAIR_KIND_ARRIVE, "burst", 1, 3, 1, 0, 0},   {0, 398, PFAIR_KIND_DEPART, "logger", 0, 0, 0, 0, 0},
    {1, 400, PFAIR_KIND_ARRIVE, "logger", 1, 6, 0, 0, 0},  {0, 450, PFAIR_KIND_LATE, "vision", 0, 0, 0, 167, 3},
    {1, 470, PFAIR_KIND_DEPART, "burst", 0, 0, 0, 0, 0},   {0, 500, PFAIR_KIND_ARRIVE, "extra", 1, 4, 0, 0, 0},
};
enum { ANNOUNCEMENTS = sizeof announcements / sizeof announcements[0] };

static struct task tasks[] = {{.name = "control"}, {.name = "vision"}, {.name = "logger"},
                              {.name = "radio"},   {.name = "burst"},  {.name = "extra"}};
enum { TASKS = sizeof tasks / sizeof tasks[0] };

static struct planner {
    struct exchange exchange;
    struct processor processor;
    pthread_t thread;
    sem_t hints;
    uint64_t end; /* the slot at whose tick its thread ends, or UINT64_MAX */
    bool is_first_in_first_out, has_told, has_closed;
} planners[MOST_PROCESSORS];

/* The processor whose thread ends at the tick of that slot, if one does. */
static struct {
    unsigned processor;
    uint64_t slot;
    atomic_bool is_over;
    atomic_uint told; /* how many of the others gave the heir what they hold */
} lost = {.slot = UINT64_MAX};

static atomic_uint ready, over; /* how many processors planned slot 0, and are through with all slots */
static atomic_bool is_begun;

_Noreturn void stop(const char *what, uint64_t number) {
    fprintf(stderr, "executive: %s: %" PRIu64 "\n", what, number);
    _exit(1);
}

void give_hint(unsigned processor) {
    sem_post(&planners[processor].hints);
}

/* Sleeps until a hint comes, or until that time. Answers false if it is that time, however many hints there are. */
static bool is_hinted(struct planner *p, struct timespec due) {
    return microseconds_since(due) < 0 && sem_clockwait(&p->hints, CLOCK_MONOTONIC, &due) == 0;
}

static struct task *task_named(const struct pfair_name *name) {
    for (int k = 0; k < TASKS; k++)
        if (strlen(tasks[k].name) == name->length && memcmp(tasks[k].name, name->bytes, name->length) == 0) return &tasks[k];
    stop("a table names a stranger", name->length);
}

/* ---- a planner */

/* Ends all if `down` is refused in the planned slot. Only that decision says so: how far the dead one's floors reach
   depends on how late its thread was. */
static void look_at_down(struct exchange *x, uint64_t slot) {
    struct pfair_decision rows[ANNOUNCEMENTS + 1];
    uint64_t count, in_run = slot % RUN;
    must(pfair_decisions(&x->dispatcher, in_run, in_run + 1, &count, rows, ANNOUNCEMENTS + 1));
    for (uint64_t row = 0; row < count; row++)
        if (is_down(&rows[row].name) && rows[row].outcome != PFAIR_OUTCOME_ADMITTED)
            stop("down isn't admitted: the tasks need all processors", slot);
}

/* Whose turn the planned slot is here. The processor whose place `down` has takes the dead one's place. */
static struct turn turn_in(struct exchange *x, uint64_t slot) {
    struct pfair_pick rows[MOST_PROCESSORS];
    uint8_t places[MOST_PROCESSORS];
    uint64_t count;
    struct turn turn = {0};
    must(pfair_table(&x->dispatcher, slot % RUN, &count, rows, MOST_PROCESSORS));
    must(pfair_places(&x->dispatcher, slot % RUN, &count, places, MOST_PROCESSORS));
    unsigned down = place_of_down(rows, places, count), own = x->number == down ? lost.processor : x->number;
    for (uint64_t row = 0; row < count; row++) {
        uint64_t index = whole_index(x, &rows[row]);
        if (is_down(&rows[row].name)) continue;
        struct task *task = task_named(&rows[row].name);
        if (places[row] == own) turn = (struct turn){task, row, index, own};
    }
    return turn;
}

/* Plans the next slot, if what came settles it. */
static bool plan_slot(struct planner *p) {
    struct exchange *x = &p->exchange;
    uint64_t slot = p->processor.ready;
    if (!is_planned(x, slot)) return false;
    look_at_down(x, slot);
    struct turn turn = turn_in(x, slot);
    if (leave_turn(&p->processor, slot, &turn) && turn.task != NULL) note(slot, &turn, "it wasn't settled");
    leave(x, slot);
    if (p->has_told && (slot + 1) % RUN == 0 && slot + 1 < quanta) keep_closed(x, lost.processor);
    return true;
}

/* Sends, hears, and announces by the clock: others go on, also if this one can't plan. */
static void talk(struct exchange *x, uint64_t slot) {
    announce(x, announcements, ANNOUNCEMENTS, slot);
    serve(x, slot);
}

/* Goes on without the dead one. Its thread is over, so nothing of it comes any more but what is in its rings: that is
   the fence here. The heir, the least of the others, closes its log once these gave it what they hold. */
static void go_on(struct planner *p) {
    unsigned heir = lost.processor == 0, number = p->exchange.number;
    if (!p->has_told && number != heir) give_log(&p->exchange, lost.processor, heir);
    if (!p->has_told) atomic_fetch_add(&lost.told, 1);
    p->has_told = true;
    if (number != heir || p->has_closed || atomic_load(&lost.told) != machine - 1) return;
    p->has_closed = true;
    fprintf(stderr, "executive: down arrives at slot %" PRIu64 "\n", close_log(&p->exchange, lost.processor));
}

/* If a slot isn't planned 8 quanta after its tick, and a processor is dead, it is time to go on without that one. */
static void look_for_dead(struct planner *p) {
    if (p->processor.ready >= p->processor.slot) return;
    double late = microseconds_since(boundary(p->processor.ready));
    if (late > 8 * (double)quantum && atomic_load(&lost.is_over)) go_on(p);
    if (late < PATIENCE) return;
    fprintf(stderr, "executive: an entry never came\n");
    _exit(3);
}

/* The slot of the clock. A thread that is about to end announces nothing by a later slot than its last, however late it
   is: then all are in one run until its log is closed. */
static uint64_t slot_of(const struct planner *p) {
    uint64_t slot = slot_by_clock();
    return slot < p->end ? slot : p->end - 1;
}

/* Talks and plans until that time, up to AHEAD slots before their ticks. */
static void plan_until(struct planner *p, struct timespec due) {
    const struct processor *own = &p->processor;
    do {
        talk(&p->exchange, slot_of(p));
        look_for_dead(p);
        while (own->ready < quanta && own->ready < own->slot + AHEAD && plan_slot(p)) {}
    } while (is_hinted(p, due));
}

/* Plans slot 0, at which all is announced at once. Slots begin when all processors have planned it. */
static void begin_slots(struct planner *p) {
    struct exchange *x = &p->exchange;
    for (talk(x, 0); !plan_slot(p); talk(x, 0)) {
        is_hinted(p, after(now(), 1000));
        x->asked_at = UINT64_MAX; /* it asks again */
    }
    atomic_fetch_add(&ready, 1);
    for (; !atomic_load(&is_begun); is_hinted(p, after(now(), 1000))) {
        talk(x, 0);
        if (x->number != 0 || atomic_load(&ready) != machine) continue;
        begin = after(now(), 10000);
        atomic_store(&is_begun, true);
    }
}

/* Plans what is left, and serves the others until they are through, too. A dead one does neither. */
static void end_slots(struct planner *p, bool is_dead) {
    while (!is_dead && p->processor.ready < quanta) plan_until(p, after(now(), 1000));
    atomic_fetch_add(&over, 1);
    while (!is_dead && atomic_load(&over) != machine) plan_until(p, after(now(), 1000));
}

static void *be_processor(void *itself) {
    struct planner *p = itself;
    unsigned number = p->exchange.number;
    pin(pthread_self(), number);
    p->is_first_in_first_out = first_in_first_out(pthread_self(), 20);
    begin_slots(p);
    bool dies = p->end < quanta;
    uint64_t end = dies ? p->end : quanta;
    for (uint64_t slot = 0; slot < end; slot++) {
        sleep_until(boundary(slot));
        tick(&p->processor, number, slot);
        plan_until(p, after(boundary(slot), quantum / 2));
    }
    sleep_until(boundary(end));
    end_turn(&p->processor);
    if (dies) atomic_store(&lost.is_over, true);
    end_slots(p, dies);
    must(pfair_close(&p->exchange.dispatcher));
    return NULL;
}

/* ---- the whole */

static int by_size(const void *left, const void *right) {
    double a = *(const double *)left, b = *(const double *)right;
    return (a > b) - (a < b);
}

static void tell(const char *what, unsigned number, double *times) {
    qsort(times, (size_t)quanta, sizeof *times, by_size);
    fprintf(stderr, "processor %u, %s, microseconds: median %.1f, 99 %% %.1f, greatest %.1f\n", number, what,
            times[quanta / 2], times[quanta * 99 / 100], times[quanta - 1]);
}

/* Prints the turns of all threads that ran, as they noted them; and on standard error those that were lost. */
static void tell_rows(void) {
    uint64_t lost_ones = 0;
    puts("slot,processor,task,index,place");
    for (uint64_t slot = 0; slot < quanta; slot++)
        for (uint64_t row = 0; row < machine; row++)
            for (unsigned place = 0; place < machine; place++) {
                const struct cell *cell = &record[slot][place];
                const struct turn *turn = &cell->turn;
                if (turn->task == NULL || turn->row != row) continue;
                FILE *file = cell->lost == NULL ? stdout : stderr;
                fprintf(file, "%" PRIu64 ",%" PRIu64 ",%s,%" PRIu64 ",%u", slot, row, turn->task->name, turn->index,
                        place);
                fprintf(file, cell->lost == NULL ? "\n" : " lost: %s\n", cell->lost);
                lost_ones += cell->lost != NULL;
            }
    fprintf(stderr, "executive: %" PRIu64 " quanta are lost\n", lost_ones);
}

static void start_all(void) {
    for (unsigned k = 0; k < machine; k++) {
        begin_exchange(&planners[k].exchange, k, machine, FRAME, quanta);
        planners[k].end = k == lost.processor ? lost.slot : UINT64_MAX;
        sem_init(&planners[k].hints, 0, 0);
    }
    for (int k = 0; k < TASKS; k++) {
        pthread_mutex_init(&tasks[k].lock, NULL);
        pthread_cond_init(&tasks[k].changed, NULL);
        if (pthread_create(&tasks[k].thread, NULL, be_task, &tasks[k]) != 0) stop("no thread for a task", (uint64_t)k);
        first_in_first_out(tasks[k].thread, 10);
    }
    for (unsigned k = 0; k < machine; k++)
        if (pthread_create(&planners[k].thread, NULL, be_processor, &planners[k]) != 0) stop("no thread for a processor", k);
}

static void end_all(void) {
    for (unsigned k = 0; k < machine; k++) pthread_join(planners[k].thread, NULL);
    for (int k = 0; k < TASKS; k++) {
        pthread_mutex_lock(&tasks[k].lock);
        tasks[k].is_over = true;
        pthread_cond_broadcast(&tasks[k].changed);
        pthread_mutex_unlock(&tasks[k].lock);
        pthread_join(tasks[k].thread, NULL);
    }
}

static void run(void) {
    sched_getaffinity(0, sizeof allowed, &allowed);
    if ((unsigned)CPU_COUNT(&allowed) < machine)
        fprintf(stderr, "executive: %u processors asked for, %d here: no thread is bound to one\n", machine, CPU_COUNT(&allowed));
    start_all();
    end_all();
    if (!planners[0].is_first_in_first_out)
        fprintf(stderr, "executive: SCHED_FIFO isn't allowed here: threads have the usual priority\n");
    tell_rows();
    for (unsigned k = 0; k < machine; k++) {
        const struct exchange *x = &planners[k].exchange;
        tell("waking up", k, planners[k].processor.waking);
        tell("looking up", k, planners[k].processor.looking);
        fprintf(stderr, "processor %u, messages: %" PRIu64 " lost, %" PRIu64 " came again, %" PRIu64 " requests\n", k,
                x->lost, x->known, x->asked);
    }
}

int main(int count, char **words) {
    if (count > 2) machine = (unsigned)strtoul(words[2], NULL, 10);
    if (count > 3) quanta = strtoul(words[3], NULL, 10);
    if (count > 4) quantum = strtoul(words[4], NULL, 10);
    if (count == 8 && strcmp(words[5], "lose") == 0) {
        lost.processor = (unsigned)strtoul(words[6], NULL, 10);
        lost.slot = strtoul(words[7], NULL, 10);
        bool is_there = machine > 2 && lost.processor < machine && lost.slot < quanta;
        uint64_t in_run = lost.slot % RUN; /* all have to be in one run until the log is closed */
        if (is_there && in_run >= LEAD && in_run < RUN - 2 * LEAD) count = 5;
    }
    bool is_run = count > 1 && strcmp(words[1], "run") == 0, is_file = count > 1 && strcmp(words[1], "file") == 0;
    if (count > 5 || !(is_run || is_file) || machine < 1 || machine > MOST_PROCESSORS || quanta < 1 || quanta > MOST_QUANTA || quantum < 1) {
        fprintf(stderr, "usage: executive run|file [PROCESSORS (1 to %d) [QUANTA (1 to %d) [MICROSECONDS]]]\n", MOST_PROCESSORS, MOST_QUANTA);
        fputs("       executive run PROCESSORS QUANTA MICROSECONDS lose PROCESSOR SLOT\n", stderr);
        return 2;
    }
    if (is_run) run();
    else write_task_file(announcements, ANNOUNCEMENTS, machine, FRAME, quanta);
    return 0;
}
