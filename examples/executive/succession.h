/*
 * succession.h: how the others close the log of a processor that died, so that they go on without it. What has to be so
 * before: nothing of the dead one is under way any more but what is in its rings, and one of the others, the heir, has
 * taken all that any of them holds of that log. docs/GUIDE.md, "When a processor dies", has the whole.
 */
#ifndef SUCCESSION_H
#define SUCCESSION_H
#include "exchange.h"

/* The task of weight 1 that gets what the dead processor had: a quantum in each slot, always in one place. */
static bool is_down(const struct pfair_name *name) {
    struct pfair_name down = pfair_name_of("down");
    return is_same_name(name, &down);
}

/* The place that `down` has in a table, or MOST_PROCESSORS if it isn't there. */
static unsigned place_of_down(const struct pfair_pick *rows, const uint8_t *places, uint64_t count) {
    for (uint64_t row = 0; row < count; row++)
        if (is_down(&rows[row].name)) return places[row];
    return MOST_PROCESSORS;
}

/* Gives another processor an entry of the dead one's log; this message isn't lost. */
static void give(struct exchange *x, unsigned dead, unsigned to, uint32_t number, const struct pfair_entry *entry) {
    struct message message = {.from = dead, .run = x->run, .number = number, .entry = *entry};
    while (!push(&rings[x->number][to], &message)) hear(x);
    give_hint(to);
}

/* Writes the entry with that number of the dead one's log, and answers whether there is one. */
static bool is_held(struct exchange *x, unsigned dead, uint32_t number, struct pfair_entry *entry) {
    uint64_t kind;
    must(pfair_held(&x->dispatcher, (uint8_t)dead, number, &kind, entry));
    return kind == PFAIR_HELD_ENTRY;
}

/* Gives the heir all that this processor holds of the dead one's log. */
static void give_log(struct exchange *x, unsigned dead, unsigned heir) {
    struct pfair_entry entry;
    hear(x);
    for (uint32_t number = 1; number <= MOST_ENTRIES; number++)
        if (is_held(x, dead, number, &entry)) give(x, dead, heir, number, &entry);
}

static void say_for(struct exchange *x, unsigned dead, uint32_t number, const struct pfair_entry *entry) {
    take(x, dead, number, entry);
    for (unsigned to = 0; to < x->processors; to++)
        if (to != x->number && to != dead) give(x, dead, to, number, entry);
}

/* The heir closes the log behind all that any processor holds, and answers the slot at which `down` arrives: the last
   floor. A number without an entry gets an empty one of the floor before. There is room for `down` at once if the
   tasks leave one processor free. */
static uint64_t close_log(struct exchange *x, unsigned dead) {
    struct pfair_entry entry, empty = {.kind = PFAIR_KIND_NOTHING};
    struct pfair_entry down = {.kind = PFAIR_KIND_ARRIVE, .cost = 1, .period = 1};
    uint32_t said = MOST_ENTRIES;
    hear(x);
    while (said > 0 && !is_held(x, dead, said, &entry)) said--;
    if (said + 2 > MOST_ENTRIES) stop("the dead one's log is full", said);
    for (uint32_t number = 1; number <= said; number++) {
        bool is_there = is_held(x, dead, number, &entry);
        if (is_there) empty.floor = entry.floor;
        say_for(x, dead, number, is_there ? &entry : &empty);
    }
    down.name = pfair_name_of("down");
    down.floor = down.at = empty.floor;
    say_for(x, dead, said + 1, &down);
    empty.floor = slots_of(x, x->run);
    say_for(x, dead, said + 2, &empty);
    return x->run * RUN + down.at;
}

/* In a next run the log is empty again, and `down` goes on. Each of the others closes the log, with the same entry. */
static void keep_closed(struct exchange *x, unsigned dead) {
    struct pfair_entry closing = {.floor = slots_of(x, x->run), .kind = PFAIR_KIND_NOTHING};
    take(x, dead, 1, &closing);
}

#endif
