/*
 * Slots that are forgotten: what is planned is what a dispatcher plans that forgets nothing, calls tell nothing of what is
 * forgotten, also after a reopen, and the memory of a long run doesn't grow.
 *
 *   forget_test [quick]
 */
#include "full_set.h"

enum { KEPT = 1000 };

/* What all slots are if none is forgotten. */
static uint64_t *all_told(uint64_t slots, uint64_t late_at) {
    struct pfair_dispatcher d = PFAIR_NONE;
    uint64_t *rows = __real_malloc(slots * sizeof *rows);
    filled(&d, slots, late_at);
    for (uint64_t slot = 0; slot < slots; slot++) plan_one(&d, slot);
    for (uint64_t slot = 0; slot < slots; slot++) rows[slot] = digest(&d, slot);
    ANSWERS(0, pfair_close(&d));
    return rows;
}

/* A slot has no rows. */
static void told_nothing(struct pfair_dispatcher *d, uint64_t slot) {
    struct pfair_pick picks[PROCESSORS];
    struct pfair_decision decided[TASKS];
    uint8_t places[PROCESSORS];
    uint64_t count = 77;
    ANSWERS(104, pfair_table(d, slot, &count, picks, PROCESSORS));
    ANSWERS(104, pfair_places(d, slot, &count, places, PROCESSORS));
    ANSWERS(104, pfair_decisions(d, slot, slot + 1, &count, decided, TASKS));
    CHECK(count == 77, "%" PRIu64 " rows counted", count);
}

/* The slots from `first` on have rows, and none below it; what counts from slot 0 on is not given at all. */
static void told_from(struct pfair_dispatcher *d, uint64_t first, uint64_t planned, const uint64_t *rows) {
    static struct pfair_quantum quanta[PROCESSORS * 4];
    static struct pfair_decision decisions[TASKS + 1];
    static struct pfair_lag lags[TASKS];
    uint64_t count, next;
    ANSWERS(0, pfair_next_slot(d, &next));
    CHECK(next == planned, "%" PRIu64 " planned", next);
    for (uint64_t slot = first > 3 ? first - 3 : 0; slot < first; slot++) told_nothing(d, slot);
    for (uint64_t slot = first; slot < planned; slot++) CHECK(digest(d, slot) == rows[slot], "slot %" PRIu64, slot);
    told_nothing(d, planned);
    uint64_t to = first + 3 < planned ? first + 3 : planned;
    if (first < to) {
        ANSWERS(0, pfair_quanta(d, first, to, &count, quanta, PROCESSORS * 4));
        CHECK(count > 0 && quanta[0].slot == first, "%" PRIu64 " quanta", count);
        ANSWERS(0, pfair_decisions(d, first, to, &count, decisions, TASKS + 1));
    }
    if (first > 0) {
        count = 77;
        ANSWERS(104, pfair_quanta(d, first - 1, first + 1, &count, quanta, PROCESSORS * 4));
        ANSWERS(104, pfair_decisions(d, first - 1, first, &count, decisions, TASKS + 1));
        ANSWERS(104, pfair_lags(d, planned - 1, planned, &count, lags, TASKS));
        CHECK(count == 77, "%" PRIu64 " rows counted", count);
        ANSWERS(0, pfair_quanta(d, 0, 0, &count, quanta, 0));
        CHECK(count == 0, "%" PRIu64 " quanta of no slots", count);
        count = 77;
        ANSWERS(0, pfair_decisions(d, first - 1, first - 1, &count, decisions, 0));
        CHECK(count == 0, "%" PRIu64 " decisions of no slots", count);
        count = 77;
        ANSWERS(0, pfair_lags(d, 1, 0, &count, lags, 0));
        CHECK(count == 0, "%" PRIu64 " lags of no slots", count);
    }
}

/* Forgets, and asks for no memory. */
static void forget(struct pfair_dispatcher *d, uint64_t slots) {
    refuse_all();
    ANSWERS(0, pfair_forget(d, slots));
    CHECK(calls == 0, "%ld allocations", calls);
    ample();
}

/* Some slots are forgotten after each that is planned: more, all, and fewer than before, and each slot beside a piece. */
static void forgotten_as_planned(uint64_t slots, uint64_t late_at, const uint64_t *rows) {
    struct pfair_dispatcher d = PFAIR_NONE;
    uint64_t first = 0;
    filled(&d, slots, late_at);
    forget(&d, UINT64_MAX);
    for (uint64_t slot = 0; slot < slots; slot++) {
        plan_one(&d, slot);
        CHECK(digest(&d, slot) == rows[slot], "slot %" PRIu64, slot);
        if (slot % 7 == 3 || (slot + 2) % 1024 < 5) {
            uint64_t wanted = slot % 3 == 0 ? slot / 2 : slot % 3 == 1 ? UINT64_MAX : slot;
            forget(&d, wanted);
            if (wanted > slot + 1) wanted = slot + 1;
            if (wanted > first) first = wanted;
            if (slot % 100 == 3 || (slot + 2) % 1024 < 5) told_from(&d, first, slot + 1, rows);
        }
    }
    ANSWERS(0, pfair_close(&d));
}

/* Memory is refused to a plan after some were forgotten: a reopen plans these again, and tells nothing of them. */
static void reopened(uint64_t slots, uint64_t late_at, const uint64_t *rows) {
    struct pfair_dispatcher d = PFAIR_NONE;
    struct pfair_step s;
    uint64_t half = slots / 2;
    filled(&d, slots, late_at);
    for (uint64_t slot = 0; slot < half; slot++) plan_one(&d, slot);
    forget(&d, half - 5);
    uint32_t answer = 0;
    for (uint64_t slot = half; answer == 0; slot++) {
        refuse_all();
        answer = pfair_plan_next(&d, &s);
        ample();
        if (answer == 0) half = slot + 1;
    }
    CHECK(answer == 90, "answered %" PRIu32, answer);
    ANSWERS(31, pfair_plan_next(&d, &s));
    forget(&d, half - 4);
    told_from(&d, half - 4, half, rows);
    ANSWERS(0, pfair_reopen(&d));
    told_from(&d, half - 4, half, rows);
    for (uint64_t slot = half; slot < slots; slot++) plan_one(&d, slot);
    told_from(&d, half - 4, slots, rows);
    ANSWERS(0, pfair_close(&d));
}

/* A long run of which a thousand slots are kept: the memory in use after each is at most what it was in the beginning. */
static void long_run(uint64_t slots) {
    struct pfair_dispatcher d = PFAIR_NONE;
    long most_at_first = 0, most = 0;
    filled(&d, slots, slots / 2);
    for (uint64_t slot = 0; slot < slots; slot++) {
        plan_one(&d, slot);
        if (slot >= KEPT) ANSWERS(0, pfair_forget(&d, slot + 1 - KEPT));
        long *where = slot < 4 * KEPT ? &most_at_first : &most;
        if (bytes > *where) *where = bytes;
    }
    printf("%" PRIu64 " slots, %d kept: at most %ld KB in use, %ld KB in the first %d\n", slots, KEPT, most / 1024, most_at_first / 1024, 4 * KEPT);
    CHECK(most <= most_at_first + most_at_first / 50, "%ld bytes, and %ld at first", most, most_at_first);
    ANSWERS(0, pfair_close(&d));
}

/* It is answered of a dispatcher that is torn too, and not without one. */
static void of_any_dispatcher(void) {
    struct pfair_dispatcher d = PFAIR_NONE;
    struct pfair_step s;
    struct pfair_pick picks[1];
    uint64_t taken, count;
    ANSWERS(102, pfair_forget(&d, 1));
    ANSWERS(0, pfair_open(&d, 1, 6, 6, 5));
    forget(&d, 3);
    ANSWERS(0, take(&d, 0, 1, arrive("a", 1, 2, 0), &taken));
    ANSWERS(0, take(&d, 0, 2, nothing(6), &taken));
    ANSWERS(0, pfair_plan_to(&d, 3, &s));
    ANSWERS(0, pfair_table(&d, 0, &count, picks, 1));
    ANSWERS(0, take(&d, 0, 2, nothing(5), &taken));
    CHECK(taken == PFAIR_TAKEN_TORN, "torn");
    forget(&d, 2);
    told_nothing(&d, 1);
    ANSWERS(0, pfair_table(&d, 2, &count, picks, 1));
    forget(&d, 0);
    told_nothing(&d, 1);
    ANSWERS(30, pfair_plan_next(&d, &s));
    ANSWERS(0, pfair_close(&d));
}

int main(int count, char **words) {
    int quick = count > 1 && !strcmp(words[1], "quick");
    uint64_t slots = quick ? 2100 : 6000, late_at = slots / 2;
    long at_first = blocks;
    uint64_t *rows = all_told(slots, late_at);
    forgotten_as_planned(slots, late_at, rows);
    reopened(slots, late_at, rows);
    __real_free(rows);
    long_run(quick ? 20000 : 1000000);
    of_any_dispatcher();
    CHECK(blocks == at_first, "%ld blocks not freed", blocks - at_first);
    return told();
}
