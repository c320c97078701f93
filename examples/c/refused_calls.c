/*
 * Calls every function of pfair.h with every kind of bad argument that the header allows: each call has to answer the
 * number that the header states, write nothing, and leave the dispatcher as it was. Prints how many calls there were,
 * and ends with status 1 at the first one that answers otherwise.
 */
#include "pfair.h"
#include <inttypes.h>
#include <stdio.h>
#include <stdlib.h>
#include <string.h>

enum { PROCESSORS = 2, SLOTS = 6, CAPACITY = 6, TAKEN = 5, ROOM = 8 };

/* All that can be read of a dispatcher. */
struct seen {
    uint64_t frontier, next, table_rows[SLOTS], place_rows[SLOTS], decisions;
    struct pfair_pick table[SLOTS][PROCESSORS];
    uint8_t places[SLOTS][PROCESSORS];
    struct pfair_decision decided[ROOM];
};

static struct pfair_dispatcher d = PFAIR_NONE, closed = PFAIR_NONE, other = PFAIR_NONE;
static struct seen before;
static uint64_t calls;

static void fail(int line, const char *what, uint32_t answer) {
    printf("refused_calls: line %d: %s, answer %" PRIu32 "\n", line, what, answer);
    exit(1);
}

static void must(uint32_t answer, int line) {
    if (answer != PFAIR_DONE) fail(line, "a call was refused", answer);
}
#define MUST(call) must((call), __LINE__)

static void look(struct seen *seen) {
    memset(seen, 0, sizeof *seen);
    MUST(pfair_frontier(&d, &seen->frontier));
    MUST(pfair_next_slot(&d, &seen->next));
    for (uint64_t slot = 0; slot < seen->next; slot++) {
        MUST(pfair_table(&d, slot, &seen->table_rows[slot], seen->table[slot], PROCESSORS));
        MUST(pfair_places(&d, slot, &seen->place_rows[slot], seen->places[slot], PROCESSORS));
    }
    MUST(pfair_decisions(&d, 0, seen->next, &seen->decisions, seen->decided, ROOM));
}

/* The call was refused with this number, and the dispatcher is as it was. */
static void refused(uint32_t number, uint32_t answer, int line) {
    static struct seen now;
    calls++;
    if (answer != number) fail(line, "another number was wanted", answer);
    look(&now);
    if (memcmp(&now, &before, sizeof now) != 0) fail(line, "the dispatcher changed", answer);
    if (closed.is_open || closed.at) fail(line, "a closed handle changed", answer);
}
#define REFUSED(number, call) refused((number), (call), __LINE__)

static void same(const void *a, const void *b, size_t size, int line) {
    if (memcmp(a, b, size) != 0) fail(line, "something was written", 0);
}
#define SAME(a, b) same(&(a), &(b), sizeof(a), __LINE__)

static struct pfair_entry entry_of(uint64_t kind, uint64_t floor, uint64_t at, const char *name) {
    struct pfair_entry entry = {.floor = floor, .kind = kind, .at = at, .cost = 1, .period = 3, .index = 4, .by = 2};
    entry.name = pfair_name_of(name);
    return entry;
}

static void windows(void) {
    struct pfair_window kept = {7, 7, 7, 7}, window = kept;
    const uint64_t far = (uint64_t)1 << 40;
    REFUSED(PFAIR_ZERO_COST, pfair_window(0, 5, 1, 0, &window));
    REFUSED(PFAIR_ZERO_COST, pfair_window(0, 0, 0, UINT64_MAX, &window));
    REFUSED(PFAIR_COST_OVER_PERIOD, pfair_window(6, 5, 1, 0, &window));
    REFUSED(PFAIR_COST_OVER_PERIOD, pfair_window(UINT64_MAX, 0, 1, 0, &window));
    REFUSED(PFAIR_PERIOD_TOO_LONG, pfair_window(1, 1000000001, 1, 0, &window));
    REFUSED(PFAIR_PERIOD_TOO_LONG, pfair_window(1, UINT64_MAX, 1, 0, &window));
    REFUSED(PFAIR_OUT_OF_RANGE, pfair_window(1, 2, 0, 0, &window));
    REFUSED(PFAIR_OUT_OF_RANGE, pfair_window(1, 2, 1000002, 0, &window));
    REFUSED(PFAIR_OUT_OF_RANGE, pfair_window(1, 2, UINT64_MAX, 0, &window));
    REFUSED(PFAIR_OUT_OF_RANGE, pfair_window(1, 2, 1, far + 1, &window));
    REFUSED(PFAIR_OUT_OF_RANGE, pfair_window(1, 2, 1, UINT64_MAX, &window));
    SAME(window, kept);
    MUST(pfair_window(1, 1000000000, 1000001, far, &window));
    if (window.release != far + UINT64_C(1000000000000000) || window.deadline != far + UINT64_C(1000001000000000) || window.b_bit != 0 || window.group_deadline != 0)
        fail(__LINE__, "the last window is wrong", 0);
}

static void openings(void) {
    REFUSED(PFAIR_OPEN_ALREADY, pfair_open(&d, 2, 6, 6, 5));
    REFUSED(PFAIR_OPEN_ALREADY, pfair_open(&d, 0, 0, 0, 0));
    REFUSED(PFAIR_OUT_OF_RANGE, pfair_open(&closed, 0, 6, 6, 5));
    REFUSED(PFAIR_OUT_OF_RANGE, pfair_open(&closed, 65, 6, 6, 5));
    REFUSED(PFAIR_OUT_OF_RANGE, pfair_open(&closed, UINT8_MAX, 6, 6, 5));
    REFUSED(PFAIR_OUT_OF_RANGE, pfair_open(&closed, 2, 0, 6, 5));
    REFUSED(PFAIR_OUT_OF_RANGE, pfair_open(&closed, 2, 1000000001, 6, 5));
    REFUSED(PFAIR_OUT_OF_RANGE, pfair_open(&closed, 2, UINT64_MAX, 6, 5));
    REFUSED(PFAIR_OUT_OF_RANGE, pfair_open(&closed, 2, 6, 0, 5));
    REFUSED(PFAIR_OUT_OF_RANGE, pfair_open(&closed, 2, 6, 1000001, 5));
    REFUSED(PFAIR_OUT_OF_RANGE, pfair_open(&closed, 2, 6, UINT64_MAX, 5));
    REFUSED(PFAIR_OUT_OF_RANGE, pfair_open(&closed, 2, 6, 6, 0));
    REFUSED(PFAIR_OUT_OF_RANGE, pfair_open(&closed, 2, 6, 6, 4097));
    REFUSED(PFAIR_OUT_OF_RANGE, pfair_open(&closed, 2, 6, 6, UINT32_MAX));
    REFUSED(PFAIR_NOT_OPEN, pfair_close(&closed));
    MUST(pfair_open(&other, 64, 1000000000, 1000000, 4096));
    MUST(pfair_close(&other));
    REFUSED(PFAIR_NOT_OPEN, pfair_close(&other));
}

/* The entry is refused with this number, for a key that is in range and for one that isn't. */
static void refused_entry(uint32_t number, struct pfair_entry entry, int line) {
    uint64_t taken = 77;
    refused(number, pfair_take(&d, 0, CAPACITY, &entry, &taken), line);
    refused(number, pfair_take(&d, UINT8_MAX, 0, &entry, &taken), line);
    refused(PFAIR_NOT_OPEN, pfair_take(&closed, 0, 1, &entry, &taken), line);
    if (taken != 77) fail(line, "something was written", number);
}
#define REFUSED_ENTRY(number, entry) refused_entry((number), (entry), __LINE__)

static void names(void) {
    static const char *const bad[] = {"A", "1a", "_a", "a-b", "a b", "aB", "a\xff", "0123456789abcdef"};
    for (uint64_t kind = PFAIR_KIND_ARRIVE; kind <= PFAIR_KIND_LATE; kind++) {
        struct pfair_entry entry = entry_of(kind, 6, 6, "a");
        for (size_t k = 0; k < sizeof bad / sizeof *bad; k++) REFUSED_ENTRY(PFAIR_NAME_BAD_BYTE, entry_of(kind, 6, 6, bad[k]));
        REFUSED_ENTRY(PFAIR_NAME_EMPTY, entry_of(kind, 6, 6, ""));
        REFUSED_ENTRY(PFAIR_NAME_TOO_LONG, entry_of(kind, 6, 6, "a0123456789abcdef"));
        entry.name.length = 2;
        REFUSED_ENTRY(PFAIR_NAME_BAD_BYTE, entry);
        entry.name.length = 17;
        REFUSED_ENTRY(PFAIR_NAME_TOO_LONG, entry);
        entry.name.length = UINT64_MAX;
        REFUSED_ENTRY(PFAIR_NAME_TOO_LONG, entry);
        /* the order of the checks: the name, then the weight, then slots and indexes */
        entry.cost = 0;
        entry.floor = 1000001;
        REFUSED_ENTRY(PFAIR_NAME_TOO_LONG, entry);
    }
}

static struct pfair_entry weighing(uint64_t cost, uint64_t period, uint64_t early) {
    struct pfair_entry entry = entry_of(PFAIR_KIND_ARRIVE, 6, 6, "a");
    entry.cost = cost;
    entry.period = period;
    entry.early = early;
    return entry;
}

static struct pfair_entry delaying(uint64_t index, uint64_t by) {
    struct pfair_entry entry = entry_of(PFAIR_KIND_LATE, 6, 6, "b");
    entry.index = index;
    entry.by = by;
    return entry;
}

static void entries(void) {
    REFUSED_ENTRY(PFAIR_OUT_OF_RANGE, entry_of(4, 6, 6, "a"));
    REFUSED_ENTRY(PFAIR_OUT_OF_RANGE, entry_of(UINT64_MAX, 1000001, 6, ""));
    REFUSED_ENTRY(PFAIR_OUT_OF_RANGE, weighing(1, 3, 2));
    REFUSED_ENTRY(PFAIR_OUT_OF_RANGE, weighing(0, 0, UINT64_MAX));
    REFUSED_ENTRY(PFAIR_ZERO_COST, weighing(0, 3, 0));
    REFUSED_ENTRY(PFAIR_ZERO_COST, weighing(0, 0, 1));
    REFUSED_ENTRY(PFAIR_COST_OVER_PERIOD, weighing(4, 3, 0));
    REFUSED_ENTRY(PFAIR_COST_OVER_PERIOD, weighing(UINT64_MAX, 1000000001, 0));
    REFUSED_ENTRY(PFAIR_PERIOD_TOO_LONG, weighing(1, 1000000001, 0));
    REFUSED_ENTRY(PFAIR_PERIOD_TOO_LONG, weighing(1, UINT64_MAX, 1));
    for (uint64_t kind = PFAIR_KIND_NOTHING; kind <= PFAIR_KIND_LATE; kind++) {
        REFUSED_ENTRY(PFAIR_SLOT_TOO_FAR, entry_of(kind, 1000001, 1000001, "a"));
        REFUSED_ENTRY(PFAIR_SLOT_TOO_FAR, entry_of(kind, UINT64_MAX, 0, "a"));
        if (kind == PFAIR_KIND_NOTHING) continue;
        REFUSED_ENTRY(PFAIR_SLOT_TOO_FAR, entry_of(kind, 6, 1000001, "a"));
        REFUSED_ENTRY(PFAIR_SLOT_TOO_FAR, entry_of(kind, 6, UINT64_MAX, "a"));
        REFUSED_ENTRY(PFAIR_STAMP_BEFORE_FLOOR, entry_of(kind, 6, 5, "a"));
        REFUSED_ENTRY(PFAIR_STAMP_BEFORE_FLOOR, entry_of(kind, 1000000, 0, "a"));
    }
    REFUSED_ENTRY(PFAIR_BAD_DELAY, delaying(4, 0));
    REFUSED_ENTRY(PFAIR_BAD_DELAY, delaying(4, 1048577));
    REFUSED_ENTRY(PFAIR_BAD_DELAY, delaying(4, UINT64_MAX));
    REFUSED_ENTRY(PFAIR_BAD_INDEX, delaying(0, 2));
    REFUSED_ENTRY(PFAIR_BAD_INDEX, delaying(0, 0));
    REFUSED_ENTRY(PFAIR_BAD_INDEX, delaying(1000001, 2));
    REFUSED_ENTRY(PFAIR_BAD_INDEX, delaying(UINT64_MAX, 2));
}

static void keys(void) {
    struct pfair_entry entry = entry_of(PFAIR_KIND_NOTHING, 6, 0, "");
    uint64_t taken = 77;
    REFUSED(PFAIR_NO_SUCH_PROCESSOR, pfair_take(&d, PROCESSORS, 1, &entry, &taken));
    REFUSED(PFAIR_NO_SUCH_PROCESSOR, pfair_take(&d, UINT8_MAX, 0, &entry, &taken));
    REFUSED(PFAIR_NO_SUCH_NUMBER, pfair_take(&d, 0, 0, &entry, &taken));
    REFUSED(PFAIR_NO_SUCH_NUMBER, pfair_take(&d, 1, CAPACITY + 1, &entry, &taken));
    REFUSED(PFAIR_NO_SUCH_NUMBER, pfair_take(&d, 1, UINT32_MAX, &entry, &taken));
    if (taken != 77) fail(__LINE__, "something was written", 0);
}

static void absorbing(void) {
    REFUSED(PFAIR_NOT_OPEN, pfair_absorb(&d, &closed));
    REFUSED(PFAIR_NOT_OPEN, pfair_absorb(&closed, &d));
    REFUSED(PFAIR_NOT_OPEN, pfair_absorb(&closed, &other));
    MUST(pfair_open(&other, PROCESSORS + 1, 6, SLOTS, CAPACITY));
    REFUSED(PFAIR_OTHER_SHAPE, pfair_absorb(&d, &other));
    REFUSED(PFAIR_OTHER_SHAPE, pfair_absorb(&other, &d));
    MUST(pfair_close(&other));
    MUST(pfair_open(&other, PROCESSORS, 6, SLOTS, CAPACITY + 1));
    REFUSED(PFAIR_OTHER_SHAPE, pfair_absorb(&d, &other));
    MUST(pfair_close(&other));
}

static void reading(void) {
    struct pfair_step step = {7, 7, 7, 7}, kept_step = step;
    struct pfair_pick pick[ROOM], kept_pick[ROOM];
    struct pfair_decision decided[ROOM], kept_decided[ROOM];
    uint8_t places[ROOM], kept_places[ROOM];
    uint64_t number = 77, slots[] = {before.next, SLOTS, 1000000, UINT64_MAX - 1};
    memset(pick, 7, sizeof pick);
    memset(decided, 7, sizeof decided);
    memset(places, 7, sizeof places);
    memcpy(kept_pick, pick, sizeof pick);
    memcpy(kept_decided, decided, sizeof decided);
    memcpy(kept_places, places, sizeof places);
    REFUSED(PFAIR_NOT_OPEN, pfair_plan_next(&closed, &step));
    REFUSED(PFAIR_NOT_OPEN, pfair_reserve(&closed, 1, 1));
    REFUSED(PFAIR_NOT_OPEN, pfair_forget(&closed, 1));
    REFUSED(PFAIR_NOT_OPEN, pfair_reopen(&closed));
    REFUSED(PFAIR_NOT_OPEN, pfair_frontier(&closed, &number));
    REFUSED(PFAIR_NOT_OPEN, pfair_next_slot(&closed, &number));
    REFUSED(PFAIR_NOT_OPEN, pfair_table(&closed, 0, &number, pick, ROOM));
    REFUSED(PFAIR_NOT_OPEN, pfair_places(&closed, 0, &number, places, ROOM));
    REFUSED(PFAIR_NOT_OPEN, pfair_decisions(&closed, 0, 1, &number, decided, ROOM));
    for (size_t k = 0; k < sizeof slots / sizeof *slots; k++) {
        REFUSED(PFAIR_NOT_PLANNED, pfair_table(&d, slots[k], &number, pick, ROOM));
        REFUSED(PFAIR_NOT_PLANNED, pfair_places(&d, slots[k], &number, places, ROOM));
        REFUSED(PFAIR_NOT_PLANNED, pfair_decisions(&d, 0, slots[k] + 1, &number, decided, ROOM));
        REFUSED(PFAIR_NOT_PLANNED, pfair_decisions(&d, slots[k], slots[k] + 1, &number, decided, 0));
    }
    if (number != 77) fail(__LINE__, "a count was written", 0);
    for (size_t room = 0; room < 2; room++) {
        REFUSED(PFAIR_NO_ROOM, pfair_table(&d, 0, &number, pick, room));
        if (number != before.table_rows[0]) fail(__LINE__, "the count is wrong", 0);
        REFUSED(PFAIR_NO_ROOM, pfair_places(&d, 0, &number, places, room));
        if (number != before.place_rows[0]) fail(__LINE__, "the count is wrong", 0);
        REFUSED(PFAIR_NO_ROOM, pfair_decisions(&d, 0, before.next, &number, decided, room));
        if (number != before.decisions) fail(__LINE__, "the count is wrong", 0);
    }
    SAME(step, kept_step);
    SAME(pick, kept_pick);
    SAME(places, kept_places);
    SAME(decided, kept_decided);
    /* rows after the ones that are written stay as they are */
    MUST(pfair_table(&d, 0, &number, pick, ROOM));
    same(pick + number, kept_pick + number, (size_t)(ROOM - number) * sizeof *pick, __LINE__);
}

/* What is torn stays torn, and what was planned stands. */
static void tearing(void) {
    struct pfair_entry second = entry_of(PFAIR_KIND_NOTHING, 5, 0, "");
    struct pfair_step step = {7, 7, 7, 7};
    uint64_t taken;
    MUST(pfair_take(&d, 1, TAKEN, &second, &taken));
    if (taken != PFAIR_TAKEN_TORN) fail(__LINE__, "it isn't torn", 0);
    look(&before);
    REFUSED(PFAIR_TORN, pfair_plan_next(&d, &step));
    if (step.processor != 1 || step.number != TAKEN) fail(__LINE__, "another entry is said to be torn", 0);
    if (step.kind != 7 || step.slot != 7) fail(__LINE__, "something was written", 0);
    REFUSED(PFAIR_TORN, pfair_reopen(&d));
}

/* The ten entries of examples/two_processors.toml, and three slots planned. */
static void start(void) {
    struct pfair_entry logs[PROCESSORS][TAKEN] = {
        {entry_of(PFAIR_KIND_ARRIVE, 0, 0, "a"), entry_of(PFAIR_KIND_ARRIVE, 0, 0, "b"),
         entry_of(PFAIR_KIND_DEPART, 2, 2, "a"), entry_of(PFAIR_KIND_NOTHING, 4, 0, ""),
         entry_of(PFAIR_KIND_NOTHING, 6, 0, "")},
        {entry_of(PFAIR_KIND_ARRIVE, 0, 0, "c"), entry_of(PFAIR_KIND_ARRIVE, 1, 3, "d"),
         entry_of(PFAIR_KIND_LATE, 3, 4, "b"), entry_of(PFAIR_KIND_NOTHING, 5, 0, ""),
         entry_of(PFAIR_KIND_NOTHING, 6, 0, "")},
    };
    struct pfair_step step;
    uint64_t taken;
    logs[0][0].period = 2;
    logs[0][1].cost = 2;
    logs[1][1].period = 2;
    MUST(pfair_open(&d, PROCESSORS, 6, SLOTS, CAPACITY));
    for (uint8_t k = 0; k < PROCESSORS; k++)
        for (uint32_t n = 1; n <= TAKEN; n++) MUST(pfair_take(&d, k, n, &logs[k][n - 1], &taken));
    for (int slot = 0; slot < 3; slot++) MUST(pfair_plan_next(&d, &step));
    look(&before);
}

int main(void) {
    struct pfair_entry late = entry_of(PFAIR_KIND_DEPART, 6, 6, "a");
    uint64_t taken = 77;
    start();
    windows();
    openings();
    names();
    entries();
    keys();
    absorbing();
    reading();
    /* none of the refused entries was taken, and fields that a kind doesn't need are ignored */
    late.early = late.cost = late.period = late.index = late.by = UINT64_MAX;
    MUST(pfair_take(&d, 0, CAPACITY, &late, &taken));
    if (taken != PFAIR_TAKEN_NEW) fail(__LINE__, "a refused entry was taken", 0);
    tearing();
    MUST(pfair_close(&d));
    printf("refused_calls: %" PRIu64 " calls were refused as stated\n", calls);
    return 0;
}
