/*
 * Memory that is taken ahead. After pfair_reserve no slot asks malloc for anything if nothing is announced at it, and
 * for small blocks alone if tasks come and go; what is planned then is what a dispatcher plans that was given no memory
 * ahead; and each allocation of the call is refused in turn.
 *
 *   reserve_test [quick]
 */
#include "full_set.h"

/* What the list of planned slots has for each; it doubles. */
enum { SLOT_BYTES = 72 };

/* What all slots are without a reserve. Says how often the slots behind the first asked for some. */
static uint64_t *without(uint64_t slots, uint64_t late_at) {
    struct pfair_dispatcher d = PFAIR_NONE;
    uint64_t *rows = __real_malloc(slots * sizeof *rows);
    filled(&d, slots, late_at);
    plan_one(&d, 0);
    refuse(0, 0);
    largest = 0;
    for (uint64_t slot = 1; slot < slots; slot++) plan_one(&d, slot);
    CHECK(largest >= SLOT_BYTES * slots && largest <= 2 * SLOT_BYTES * slots, "%zu bytes at once", largest);
    printf("without memory ahead: %.2f allocations a slot\n", (double)calls / (double)(slots - 1));
    CHECK(calls >= (long)slots, "%ld allocations alone", calls);
    for (uint64_t slot = 0; slot < slots; slot++) rows[slot] = digest(&d, slot);
    ANSWERS(0, pfair_close(&d));
    return rows;
}

/* Memory is taken for some slots ahead, and all of it is refused until they are planned. */
static void with_memory(uint64_t slots, uint64_t late_at, uint64_t ahead, const uint64_t *rows) {
    struct pfair_dispatcher d = PFAIR_NONE;
    filled(&d, slots, late_at);
    plan_one(&d, 0);
    for (uint64_t slot = 1; slot < slots; slot++) {
        if ((slot - 1) % ahead == 0) ANSWERS(0, pfair_reserve(&d, ahead, TASKS));
        if (slot != late_at) refuse_all();
        plan_one(&d, slot);
        CHECK(slot == late_at || calls == 0, "slot %" PRIu64 " asked for memory", slot);
        ample();
    }
    for (uint64_t slot = 0; slot < slots; slot++) CHECK(digest(&d, slot) == rows[slot], "slot %" PRIu64, slot);
    ANSWERS(0, pfair_close(&d));
}

/* Each allocation of the call is refused in turn, alone and with all later ones: what stood stands, and plans go on. */
static void refused_ahead(uint64_t slots, uint64_t late_at, const uint64_t *rows) {
    long refusals = 0;
    int is_whole = 0;
    for (long at = 1; !is_whole; at++)
        for (int all = 0; all < 2; all++) {
            struct pfair_dispatcher d = PFAIR_NONE;
            uint64_t next;
            filled(&d, slots, late_at);
            plan_one(&d, 0);
            refuse(at, all ? LONG_MAX - at : 1);
            uint32_t answer = pfair_reserve(&d, slots, TASKS);
            is_whole = calls < at;
            ample();
            CHECK(answer == (is_whole ? 0 : 90), "answered %" PRIu32, answer);
            refusals += answer == 90;
            ANSWERS(0, pfair_next_slot(&d, &next));
            CHECK(next == 1 && digest(&d, 0) == rows[0], "what was planned stands");
            for (uint64_t slot = 1; slot < slots; slot++) plan_one(&d, slot);
            for (uint64_t slot = 0; slot < slots; slot++) CHECK(digest(&d, slot) == rows[slot], "slot %" PRIu64, slot);
            ANSWERS(0, pfair_close(&d));
        }
    printf("pfair_reserve was refused memory %ld times\n", refusals);
    CHECK(refusals > 20, "%ld refusals alone", refusals);
}

/* Plans some slots from `first` on while all memory is refused. */
static void plan_without(struct pfair_dispatcher *d, uint64_t first, uint64_t slots) {
    refuse_all();
    for (uint64_t slot = first; slot < first + slots; slot++) {
        plan_one(d, slot);
        CHECK(calls == 0, "slot %" PRIu64 " asked for memory", slot);
    }
    ample();
}

/* Before the first slot: as nothing is announced, slot 0 needs no memory either. */
static void reserved_first(void) {
    enum { SLOTS = 3000 };
    struct pfair_dispatcher d = PFAIR_NONE;
    uint64_t taken;
    ANSWERS(0, pfair_open(&d, 1, 6, SLOTS, 5));
    ANSWERS(0, take(&d, 0, 1, nothing(SLOTS), &taken));
    ANSWERS(0, pfair_reserve(&d, SLOTS, 0));
    plan_without(&d, 0, SLOTS);
    ANSWERS(0, pfair_close(&d));
}

/* After `forget` gave the memory of planned slots back. */
static void reserved_after_forgetting(void) {
    enum { SLOTS = 5000 };
    struct pfair_dispatcher d = PFAIR_NONE;
    filled(&d, 2 * SLOTS, 2 * SLOTS);
    for (uint64_t slot = 0; slot < SLOTS; slot++) plan_one(&d, slot);
    ANSWERS(0, pfair_forget(&d, SLOTS));
    ANSWERS(0, pfair_reserve(&d, SLOTS, TASKS));
    plan_without(&d, SLOTS, SLOTS);
    ANSWERS(0, pfair_close(&d));
}

/* Slot 0 has one row, and slot 50 is the first in which all processors have one: the room for a slot's rows was taken ahead. */
static void reserved_for_all_rows(void) {
    enum { SLOTS = 200 };
    struct pfair_dispatcher d = PFAIR_NONE;
    struct pfair_pick picks[PROCESSORS];
    uint64_t taken, count;
    uint32_t number = 0;
    char name[20];
    ANSWERS(0, pfair_open(&d, PROCESSORS, FRAME, SLOTS, 20));
    for (int k = 0; k < PROCESSORS; k++) {
        snprintf(name, sizeof name, "t%d", k);
        ANSWERS(0, take(&d, 0, ++number, arrive(name, 1, 1, 0), &taken));
        if (k > 0) ANSWERS(0, take(&d, 0, ++number, late(name, 1, 50, 0), &taken));
    }
    ANSWERS(0, take(&d, 0, ++number, nothing(SLOTS), &taken));
    for (int p = 1; p < PROCESSORS; p++) ANSWERS(0, take(&d, p, 1, nothing(SLOTS), &taken));
    plan_one(&d, 0);
    ANSWERS(0, pfair_reserve(&d, SLOTS, PROCESSORS));
    plan_without(&d, 1, SLOTS - 1);
    ANSWERS(0, pfair_table(&d, 49, &count, picks, PROCESSORS));
    CHECK(count == 1, "%" PRIu64 " rows at 49", count);
    ANSWERS(0, pfair_table(&d, 50, &count, picks, PROCESSORS));
    CHECK(count == PROCESSORS, "%" PRIu64 " rows at 50", count);
    ANSWERS(0, pfair_close(&d));
}

/* It takes no more than the slots that are left and the logs' entries can need, of a torn or spent dispatcher too. */
static void of_any_dispatcher(void) {
    struct pfair_dispatcher d = PFAIR_NONE;
    struct pfair_step s;
    uint64_t taken;
    ANSWERS(102, pfair_reserve(&d, 1, 1));
    ANSWERS(0, pfair_open(&d, 1, 6, 6, 5));
    refuse(0, 0);
    ANSWERS(0, pfair_reserve(&d, UINT64_MAX, UINT64_MAX));
    CHECK(calls > 64 && calls < 128, "%ld allocations for six slots", calls);
    refuse_all();
    ANSWERS(0, pfair_reserve(&d, 0, UINT64_MAX));
    ANSWERS(0, pfair_reserve(&d, 6, 5));
    ample();
    ANSWERS(0, take(&d, 0, 1, arrive("a", 1, 2, 0), &taken));
    ANSWERS(0, take(&d, 0, 2, nothing(6), &taken));
    ANSWERS(0, pfair_plan_to(&d, UINT64_MAX, &s));
    CHECK(s.kind == PFAIR_STEP_ALL_PLANNED, "all");
    refuse_all();
    ANSWERS(0, pfair_reserve(&d, UINT64_MAX, UINT64_MAX));
    ANSWERS(90, pfair_reopen(&d));
    ANSWERS(0, pfair_reserve(&d, 1, 1));
    ANSWERS(31, pfair_plan_next(&d, &s));
    ample();
    ANSWERS(0, take(&d, 0, 2, nothing(5), &taken));
    CHECK(taken == PFAIR_TAKEN_TORN, "torn");
    ANSWERS(0, pfair_reserve(&d, 1, 1));
    ANSWERS(30, pfair_plan_next(&d, &s));
    ANSWERS(0, pfair_close(&d));
}

/* Each of 120 tasks is put off once, at a slot of its own: the releases that are left behind have their room too. */
static void with_all_put_off(void) {
    enum { SLOTS = 700, FIRST = 100, BY = 200, PERIOD = 240, LOG = 2 * TASKS / PROCESSORS + 1 };
    struct pfair_dispatcher d = PFAIR_NONE;
    struct pfair_pick picks[PROCESSORS];
    uint64_t taken, count;
    char name[20];
    ANSWERS(0, pfair_open(&d, PROCESSORS, FRAME, SLOTS, LOG));
    for (int k = 0; k < 2 * TASKS; k++) {
        int task = k % TASKS;
        snprintf(name, sizeof name, "t%d", task);
        struct pfair_entry e = k < TASKS ? arrive(name, 1, PERIOD, 0) : late(name, 2, BY, FIRST + task);
        ANSWERS(0, take(&d, k % PROCESSORS, k / PROCESSORS + 1, e, &taken));
    }
    for (int p = 0; p < PROCESSORS; p++) ANSWERS(0, take(&d, p, LOG, nothing(SLOTS), &taken));
    plan_one(&d, 0);
    ANSWERS(0, pfair_reserve(&d, SLOTS, TASKS));
    plan_without(&d, 1, FIRST - 1);
    largest = 0;
    for (uint64_t slot = FIRST; slot < FIRST + TASKS; slot++) plan_one(&d, slot);
    CHECK(largest > 0 && largest <= 4096, "%zu bytes", largest);
    plan_without(&d, FIRST + TASKS, SLOTS - FIRST - TASKS);
    ANSWERS(0, pfair_table(&d, PERIOD, &count, picks, PROCESSORS));
    CHECK(count == 0, "%" PRIu64 " rows at the old releases", count);
    ANSWERS(0, pfair_table(&d, PERIOD + BY, &count, picks, PROCESSORS));
    CHECK(count == PROCESSORS, "%" PRIu64 " rows at the new ones", count);
    ANSWERS(0, pfair_close(&d));
}

/* 300 subtasks are released at one slot, less than 64 slots after those before them have run. */
static void with_one_release(void) {
    enum { MANY = 300, PERIOD = 64, SLOTS = 4 * PERIOD, LOG = MANY / PROCESSORS + 2 };
    struct pfair_dispatcher d = PFAIR_NONE;
    uint32_t numbers[PROCESSORS] = {0};
    uint64_t taken;
    char name[20];
    ANSWERS(0, pfair_open(&d, PROCESSORS, PERIOD, SLOTS, LOG));
    for (int k = 0; k < MANY; k++) {
        snprintf(name, sizeof name, "t%d", k);
        ANSWERS(0, take(&d, k % PROCESSORS, ++numbers[k % PROCESSORS], arrive(name, 1, PERIOD, 0), &taken));
    }
    for (int p = 0; p < PROCESSORS; p++) ANSWERS(0, take(&d, p, ++numbers[p], nothing(SLOTS), &taken));
    plan_one(&d, 0);
    ANSWERS(0, pfair_reserve(&d, SLOTS, MANY));
    plan_without(&d, 1, SLOTS - 1);
    ANSWERS(0, pfair_close(&d));
}

/* Of 130 tasks 50 come and go, each time at a slot of its own: such a slot asks for little, and no other asks. Every
   other guest comes under a new name each time. */
static void with_guests(uint64_t slots) {
    enum { GUESTS = 50, STAYING = 80, ROUND = 2000 };
    struct pfair_dispatcher d = PFAIR_NONE;
    uint32_t numbers[PROCESSORS] = {0};
    uint64_t taken, asked_at = 0;
    char *is_announced = __real_malloc(slots), name[20];
    memset(is_announced, 0, slots);
    ANSWERS(0, pfair_open(&d, PROCESSORS, FRAME, slots, (uint32_t)(slots / ROUND + 1) * 14 + 20));
    for (int k = 0; k < STAYING; k++) {
        snprintf(name, sizeof name, "t%d", k);
        ANSWERS(0, take(&d, k % PROCESSORS, ++numbers[k % PROCESSORS], arrive(name, 1 + (k % 2), 20, 0), &taken));
    }
    for (uint64_t at = 20; at < slots; at += 20) {
        int k = (int)(at / 20 % GUESTS), is_coming = at % ROUND < ROUND / 2;
        snprintf(name, sizeof name, "g%d", k % 2 ? k : (int)(at / ROUND) * GUESTS + k);
        struct pfair_entry guest = is_coming ? arrive(name, 1, 60, at) : depart(name, at);
        ANSWERS(0, take(&d, k % PROCESSORS, ++numbers[k % PROCESSORS], guest, &taken));
        is_announced[at] = 1;
    }
    for (int p = 0; p < PROCESSORS; p++) ANSWERS(0, take(&d, p, ++numbers[p], nothing(1000000), &taken));
    plan_one(&d, 0);
    ANSWERS(0, pfair_reserve(&d, slots, STAYING + GUESTS));
    size_t most = 0;
    for (uint64_t slot = 1; slot < slots; slot++) {
        refuse(0, 0);
        largest = 0;
        plan_one(&d, slot);
        if (largest > most) most = largest;
        if (calls > 0 && !is_announced[slot]) asked_at = slot;
    }
    printf("while tasks came and went no slot asked for more than %zu bytes at once\n", most);
    CHECK(asked_at == 0, "slot %" PRIu64 " asked for memory", asked_at);
    CHECK(most > 0 && most <= 4096, "%zu bytes", most);
    __real_free(is_announced);
    ANSWERS(0, pfair_close(&d));
}

/* Takes allocate all the same, in the order of the numbers and out of it: no more than the header says. */
static void of_takes(uint32_t step) {
    enum { ENTRIES = 4096 };
    struct pfair_dispatcher d = PFAIR_NONE;
    long asking = 0, most = 0, before = bytes;
    uint64_t taken;
    ANSWERS(0, pfair_open(&d, 1, FRAME, 1000000, ENTRIES));
    ANSWERS(0, pfair_reserve(&d, 1000, TASKS));
    before = bytes;
    largest = 0;
    for (uint32_t k = 0; k < ENTRIES; k++) {
        uint32_t number = k * step % ENTRIES + 1;
        refuse(0, 0);
        ANSWERS(0, take(&d, 0, number, nothing(200 * number), &taken));
        asking += calls > 0;
        if (calls > most) most = calls;
    }
    printf("of %d takes %ld allocated, in at most %ld calls and blocks of %zu bytes, and %ld bytes an entry\n", ENTRIES,
           asking, most, largest, (bytes - before) / ENTRIES);
    CHECK(asking > 0 && asking <= ENTRIES / 8 && most <= 3 && largest <= 1392, "%ld, %ld, %zu", asking, most, largest);
    CHECK(bytes - before <= 190 * ENTRIES, "%ld bytes", bytes - before);
    ANSWERS(0, pfair_close(&d));
}

int main(int count, char **words) {
    int quick = count > 1 && !strcmp(words[1], "quick");
    uint64_t slots = quick ? 3000 : 150000, late_at = slots / 2;
    long at_first = blocks;
    uint64_t *rows = without(slots, late_at);
    with_memory(slots, late_at, slots, rows);
    with_memory(slots, late_at, 700, rows);
    __real_free(rows);
    rows = without(40, 20);
    refused_ahead(40, 20, rows);
    __real_free(rows);
    of_any_dispatcher();
    of_takes(1);
    of_takes(1365);
    reserved_first();
    reserved_after_forgetting();
    reserved_for_all_rows();
    with_all_put_off();
    with_one_release();
    with_guests(quick ? 6000 : 100000);
    CHECK(blocks == at_first, "%ld blocks not freed", blocks - at_first);
    return told();
}
