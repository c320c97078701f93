/*
 * exchange.h: what the processors of an executive say to each other. Two executives share it: examples/c/executive.c on
 * POSIX threads, and examples/kernel on bare metal.
 *
 * Each processor has a dispatcher of its own, a replica of all logs. It announces by its own log alone, and sends what
 * it said to the others through a ring for each pair. On purpose messages come late, out of order and twice, and one in
 * 16 is lost. A processor that lacks an entry asks for it again; which one that is, pfair_missing says.
 *
 * FLOORS. A processor can plan slot t once each log has a floor above t. Here a processor knows LEAD slots ahead what
 * it announces, so a floor reaches LEAD slots ahead, and the next one is due FLOOR_EVERY slots later. The entries then
 * have LEAD - FLOOR_EVERY slots to arrive in. A floor in each slot would fill a log of 4,096 entries in 4,096 slots.
 *
 * RUNS. A run has at most 1,000,000 slots; then pfair_next_run begins the next one, with new logs. Here a run has few
 * slots, so that the next one is seen: slot t is slot t % RUN of run t / RUN. Each processor begins a run by itself,
 * when it has planned the one before. It plans below all floors, and another processor's floor is at most LEAD slots
 * past the end of its run. So the other is in the same run, the one before or the one after. Messages say of which run
 * they are.
 *
 * DIGESTS. If two processors took different entries of a log under one number, and neither hears the other's, nothing is
 * torn, and their tables differ from then on. So each message has a digest of one of the logs, each log in turn, and
 * whoever knows as much of that log compares it.
 */
#ifndef EXCHANGE_H
#define EXCHANGE_H
#include "announcement.h"
#include "ring.h"

enum {
    RUN = 200, /* slots */
    LEAD = 12,
    FLOOR_EVERY = 4,
    ASK_AHEAD = 6, /* a log has to reach so many slots past that of the clock, else its processor is asked */
    MOST_ENTRIES = 128,
    MOST_KEPT = 64
};
_Static_assert(RUN % FLOOR_EVERY == 0 && LEAD % FLOOR_EVERY == 0, "what is said with a floor is of one run");
_Static_assert(RUN >= 2 * LEAD, "when the log of run r + 2 takes the place of that of run r, all are past run r");

/* What the machine below gives: it wakes a processor that waits; and it ends all if something is wrong. */
void give_hint(unsigned processor);
_Noreturn void stop(const char *what, uint64_t number);

/* What one processor said in a run. */
struct log {
    uint64_t run;
    struct pfair_entry entries[MOST_ENTRIES]; /* entry n is entries[n - 1] */
    uint64_t said_at[MOST_ENTRIES];           /* in which slot */
    uint8_t sent_to[MOST_ENTRIES];            /* a bit for each processor */
    uint32_t said, all_sent;                  /* how many entries; up to this one all were sent to all */
};

/* What one processor said, sent and heard. Only that processor uses it. */
struct exchange {
    unsigned number, processors;
    uint64_t slots; /* of all runs */
    struct pfair_dispatcher dispatcher;
    uint64_t planned;               /* how many slots of all runs are */
    uint64_t run;                   /* that the dispatcher is in */
    struct log logs[2];             /* its own: that of run r is logs[r % 2] */
    struct message kept[MOST_KEPT]; /* entries of the next run */
    unsigned kept_count;
    struct {
        struct pfair_name name;
        uint64_t subtasks;
    } taken_off[MOST_TASKS]; /* from the indexes of a task since it joined, as runs ended */
    struct {
        uint32_t count;                    /* how many entries of the log's sound beginning are hashed */
        uint64_t hashes[MOST_ENTRIES + 1]; /* hashes[n] is that of the first n */
    } digests[MOST_PROCESSORS];            /* of each log in this run */
    uint64_t floor;                        /* everything that is stamped before this slot is said */
    uint64_t asked_at;
    bool is_silent; /* a trial: all that it sends is lost */
    uint32_t tries[MOST_PROCESSORS];
    uint64_t said, heard, known, lost, asked;
};

static struct ring rings[MOST_PROCESSORS][MOST_PROCESSORS]; /* [from][to] */

static void must(uint32_t answer) {
    if (answer != PFAIR_DONE) stop("a call of the library didn't answer 0", answer);
}

static uint64_t slots_of(const struct exchange *x, uint64_t run) {
    uint64_t left = x->slots - run * RUN;
    return left < RUN ? left : RUN;
}

static void begin_exchange(struct exchange *x, unsigned number, unsigned processors, uint64_t frame, uint64_t slots) {
    struct pfair_dispatcher none = PFAIR_NONE;
    x->number = number;
    x->processors = processors;
    x->slots = slots;
    x->asked_at = UINT64_MAX;
    x->dispatcher = none;
    must(pfair_open(&x->dispatcher, (uint8_t)processors, frame, slots_of(x, 0), MOST_ENTRIES));
    must(pfair_reserve(&x->dispatcher, RUN, MOST_TASKS));
}

static uint64_t *taken_off(struct exchange *x, const struct pfair_name *name) {
    for (unsigned k = 0; k < MOST_TASKS; k++) {
        if (x->taken_off[k].name.length == 0) x->taken_off[k].name = *name;
        if (is_same_name(&x->taken_off[k].name, name)) return &x->taken_off[k].subtasks;
    }
    stop("too many tasks", MOST_TASKS);
}

/* The index of a row, counted from when the task joined. In any run only a task's first quantum has index 1. */
static uint64_t whole_index(struct exchange *x, const struct pfair_pick *row) {
    uint64_t *subtasks = taken_off(x, &row->name);
    if (row->index == 1) *subtasks = 0;
    return row->index + *subtasks;
}

/* ---- saying */

/* Gives the dispatcher an entry of this run, and returns what that met. */
static uint64_t take(struct exchange *x, unsigned from, uint32_t number, const struct pfair_entry *entry) {
    uint64_t taken;
    must(pfair_take(&x->dispatcher, (uint8_t)from, number, entry, &taken));
    if (taken == PFAIR_TAKEN_TORN) stop("two entries came under one number", number);
    return taken;
}

static void say(struct exchange *x, uint64_t run, const struct pfair_entry *entry, uint64_t slot) {
    struct log *log = &x->logs[run % 2];
    if (log->run != run) *log = (struct log){.run = run};
    if (log->said == MOST_ENTRIES) stop("a log is full", log->said);
    log->said_at[log->said] = slot;
    log->entries[log->said++] = *entry;
    x->said++;
    if (run == x->run) take(x, x->number, log->said, entry);
}

/* Says what is stamped below the next floor, all of one run, and then that floor. The index that a late release has in
   its run is known only when that has begun. */
static void raise_floor(struct exchange *x, const struct announcement *table, unsigned rows, uint64_t slot) {
    uint64_t floor = x->floor + FLOOR_EVERY, run = x->floor / RUN, begin = run * RUN;
    for (unsigned k = 0; k < rows; k++) {
        const struct announcement *a = &table[k];
        if (a->processor % x->processors != x->number || a->at < x->floor || a->at >= floor) continue;
        struct pfair_entry entry = entry_of(a, x->floor, begin);
        if (a->kind == PFAIR_KIND_LATE && run != x->run) stop("a late release is said before its run", a->at);
        if (a->kind == PFAIR_KIND_LATE) entry.index -= *taken_off(x, &entry.name);
        say(x, run, &entry, slot);
    }
    struct pfair_entry nothing = {.floor = floor - begin, .kind = PFAIR_KIND_NOTHING};
    say(x, run, &nothing, slot);
    x->floor = floor;
}

/* Says what is stamped up to LEAD slots ahead of this slot, and at most so far ahead of the run, and half a run ahead of
   what is planned. No other one plans past that, so two processors are less than half a run apart. */
static void announce(struct exchange *x, const struct announcement *table, unsigned rows, uint64_t slot) {
    uint64_t end = (x->run + 1) * RUN, most = x->planned + RUN / 2 - LEAD;
    if (end > slot) end = slot;
    if (end > most) end = most;
    while (x->floor < x->slots && x->floor + FLOOR_EVERY <= end + LEAD) raise_floor(x, table, rows, slot);
}

/* ---- digests */

/* The hash of one value more: FNV-1a of 64 bits. It tells accidents apart; against forgeries take a cryptographic one. */
static uint64_t hash_value(uint64_t hash, uint64_t value) {
    for (unsigned byte = 0; byte < 8; byte++) hash = (hash ^ (value >> 8 * byte & 0xff)) * 0x100000001b3;
    return hash;
}

static uint64_t hash_entry(uint64_t hash, const struct pfair_entry *e) {
    const uint64_t values[] = {e->floor, e->kind, e->at, e->name.length, e->cost, e->period, e->early, e->index, e->by};
    for (unsigned k = 0; k < sizeof values / sizeof *values; k++) hash = hash_value(hash, values[k]);
    for (unsigned k = 0; k < sizeof e->name.bytes; k++) hash = hash_value(hash, e->name.bytes[k]);
    return hash;
}

/* The digest of a log, as far as this processor knows it. */
static struct digest digest_of(struct exchange *x, unsigned of) {
    uint64_t mark, count, kind, *hashes = x->digests[of].hashes;
    struct pfair_entry entry;
    must(pfair_mark(&x->dispatcher, (uint8_t)of, &mark, &count));
    for (uint32_t number = x->digests[of].count + 1; number <= count; number++) {
        must(pfair_held(&x->dispatcher, (uint8_t)of, number, &kind, &entry));
        hashes[number] = hash_entry(hashes[number - 1], &entry);
        x->digests[of].count = number;
    }
    return (struct digest){.run = x->run, .hash = hashes[count], .of = of, .count = (uint32_t)count};
}

/* Ends all if the sender has other entries of a log than this processor, which knows as many. */
static void compare(struct exchange *x, const struct message *message) {
    const struct digest *other = &message->digest;
    if (other->run != x->run || other->count > digest_of(x, other->of).count) return;
    if (x->digests[other->of].hashes[other->count] == other->hash) return;
    char what[] = "processors _ and _ hold different beginnings of the log of processor _, of so many entries";
    what[11] = (char)('0' + x->number);
    what[17] = (char)('0' + message->from);
    what[69] = (char)('0' + other->of);
    stop(what, other->count);
}

/* ---- sending */

/* A number that looks like chance, and is the same in each run. */
static uint64_t chance(unsigned from, unsigned to, uint32_t number) {
    uint64_t mixed = ((uint64_t)number * MOST_PROCESSORS + to) * MOST_PROCESSORS + from + 1;
    mixed = (mixed ^ mixed >> 31) * 0x7fb5d329728ea185;
    mixed = (mixed ^ mixed >> 27) * 0x81dadef4bc2dd44d;
    return mixed ^ mixed >> 33;
}

/* Sends a message with the digest of the next log, or loses it: one in 16, and any for which there is no room. */
static void send_one(struct exchange *x, unsigned to, struct message message) {
    message.digest = digest_of(x, x->tries[to] % x->processors);
    bool is_lost = chance(x->number, to, x->tries[to]++) % 16 == 0;
    if (is_lost || x->is_silent || !push(&rings[x->number][to], &message)) x->lost++;
    else give_hint(to);
}

static void send_entry(struct exchange *x, unsigned to, const struct log *log, uint32_t number) {
    struct message message = {.from = x->number, .run = log->run, .number = number, .entry = log->entries[number - 1]};
    send_one(x, to, message);
}

/* Sends each entry of a log whose time has come, the last one first: after 0 to 5 slots, or 12 for one in 32; and one
   in 4 twice. What was said in slot 0 goes at once. */
static void send_due(struct exchange *x, struct log *log, uint64_t slot) {
    for (uint32_t number = log->said; number > log->all_sent; number--)
        for (unsigned to = 0; to < x->processors; to++) {
            uint64_t fate = chance(to, x->number, (uint32_t)log->run * MOST_ENTRIES + number) >> 8;
            uint64_t delay = fate % 32 == 0 ? 12 : fate % 6;
            uint64_t due = log->said_at[number - 1] == 0 ? 0 : log->said_at[number - 1] + delay;
            if (to == x->number || log->sent_to[number - 1] >> to & 1 || due > slot) continue;
            send_entry(x, to, log, number);
            if (fate >> 8 & 1 && fate >> 9 & 1) send_entry(x, to, log, number);
            log->sent_to[number - 1] |= (uint8_t)(1u << to);
        }
    unsigned all = (1u << x->processors) - 1 - (1u << x->number);
    while (log->all_sent < log->said && log->sent_to[log->all_sent] == all) log->all_sent++;
}

/* ---- hearing and asking */

/* Answers a request with all of this log from its number on. */
static void answer(struct exchange *x, const struct message *request) {
    const struct log *log = &x->logs[request->run % 2];
    if (log->run != request->run) return;
    for (uint32_t number = request->number; number <= log->said; number++) send_entry(x, request->from, log, number);
}

static const struct pfair_entry *kept_entry(const struct exchange *x, unsigned from, uint64_t number) {
    for (unsigned k = 0; k < x->kept_count; k++)
        if (x->kept[k].from == from && x->kept[k].number == number) return &x->kept[k].entry;
    return NULL;
}

/* Takes an entry of this run, and keeps one of the next run. If there is no room for it, it is asked for later. */
static void receive(struct exchange *x, const struct message *message) {
    bool is_next = message->run == x->run + 1 && kept_entry(x, message->from, message->number) == NULL;
    if (is_next && x->kept_count < MOST_KEPT) x->kept[x->kept_count++] = *message;
    if (message->run != x->run) return;
    x->known += take(x, message->from, message->number, &message->entry) == PFAIR_TAKEN_KNOWN;
    x->heard++;
}

static void hear(struct exchange *x) {
    struct message message;
    for (unsigned from = 0; from < x->processors; from++)
        while (pull(&rings[from][x->number], &message)) {
            if (message.is_request) answer(x, &message);
            else receive(x, &message);
            compare(x, &message);
        }
}

/* Asks each processor whose log doesn't reach far enough past this slot, maybe into the next run. What it lacks may be
   lost, or only late. */
static void ask(struct exchange *x, uint64_t slot) {
    uint64_t end = slots_of(x, x->run), wanted = slot - x->run * RUN + ASK_AHEAD + 1;
    for (unsigned from = 0; from < x->processors; from++) {
        const struct pfair_entry *kept;
        uint64_t mark, count, missing = 1, run = x->run;
        must(pfair_mark(&x->dispatcher, (uint8_t)from, &mark, &count));
        if (from == x->number || mark >= wanted) continue;
        if (mark < end) must(pfair_missing(&x->dispatcher, (uint8_t)from, &missing));
        else
            for (run++; (kept = kept_entry(x, from, missing)) != NULL; missing++) mark = end + kept->floor;
        if (missing == 0 || mark >= wanted || run * RUN >= x->slots) continue;
        struct message request = {.is_request = true, .from = x->number, .run = run, .number = (uint32_t)missing};
        send_one(x, from, request);
        x->asked++;
    }
}

/* What a processor does for the others in each slot of the clock, and again and again while it waits. It asks once in a
   slot. */
static void serve(struct exchange *x, uint64_t slot) {
    for (unsigned k = 0; k < 2; k++) send_due(x, &x->logs[k], slot);
    hear(x);
    if (x->asked_at == slot) return;
    x->asked_at = slot;
    ask(x, slot);
}

/* Whether the slot is planned now: it is unless an entry that settles it hasn't come. */
static bool is_planned(struct exchange *x, uint64_t slot) {
    struct pfair_step step;
    must(pfair_plan_next(&x->dispatcher, &step));
    if (step.kind == PFAIR_STEP_WAITING) return false;
    bool is_this = step.kind == PFAIR_STEP_PLANNED && x->run * RUN + step.slot == slot;
    if (!is_this) stop("another slot was planned", step.slot);
    return true;
}

/* ---- the next run */

/* Begins the next run, takes what was said and heard of it so far, and asks for the rest. The members before and after
   tell how much was taken off their indexes. */
static void begin_next_run(struct exchange *x) {
    const struct log *log = &x->logs[++x->run % 2];
    struct pfair_member before[MOST_TASKS], after[MOST_TASKS];
    uint64_t members;
    must(pfair_members(&x->dispatcher, &members, before, MOST_TASKS));
    must(pfair_next_run(&x->dispatcher, slots_of(x, x->run)));
    must(pfair_members(&x->dispatcher, &members, after, MOST_TASKS));
    for (uint64_t k = 0; k < members; k++) *taken_off(x, &before[k].name) += before[k].next - after[k].next;
    must(pfair_reserve(&x->dispatcher, RUN, MOST_TASKS));
    for (unsigned of = 0; of < x->processors; of++) x->digests[of].count = 0;
    uint32_t said = log->run == x->run ? log->said : 0; /* else it is that of an older run */
    for (uint32_t number = 1; number <= said; number++) take(x, x->number, number, &log->entries[number - 1]);
    for (unsigned k = 0; k < x->kept_count; k++) receive(x, &x->kept[k]);
    x->kept_count = 0;
    ask(x, x->run * RUN);
}

/* Forgets a slot, of which nothing is asked again, so that its memory can be given back. After the last slot of a run
   the next one begins. */
static void leave(struct exchange *x, uint64_t slot) {
    x->planned = slot + 1;
    must(pfair_forget(&x->dispatcher, slot % RUN + 1));
    if ((slot + 1) % RUN == 0 && slot + 1 < x->slots) begin_next_run(x);
}

#endif
