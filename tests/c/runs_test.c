/*
 * Random runs of two dispatchers against a plain reckoning of the written rules; memory refused at each allocation of
 * two dispatchers' lives; 64 processors; many slots; threads. It counts what holds and prints what doesn't.
 *
 *   runs_test [quick]
 */
#include "checks.h"
#include <pthread.h>

/* ---- a plain reckoning of the written rules, to compare with */

enum { MOST = 64 };
struct one {
    char name[17];
    uint64_t cost, period, joined, next, freed_at, last_free;
    int present, departing, early, delays;
    uint64_t from[32], by[32];
};
struct said {
    int p;
    uint32_t n;
    struct pfair_entry e;
};
static uint64_t theta(const struct one *t, uint64_t i) {
    uint64_t sum = t->joined;
    for (int k = 0; k < t->delays; k++)
        if (t->from[k] <= i) sum += t->by[k];
    return sum;
}
static struct pfair_window window_of(const struct one *t, uint64_t i) {
    struct pfair_window w = {0, 0, 0, 0};
    pfair_window(t->cost, t->period, i, theta(t, i), &w);
    return w;
}
static void gone(struct one *all, int *count, uint64_t slot) {
    int kept = 0;
    for (int k = 0; k < *count; k++)
        if (!(all[k].departing && all[k].freed_at <= slot)) all[kept++] = all[k];
    *count = kept;
}
static uint64_t decide(struct one *all, int *count, const struct pfair_entry *e, uint64_t slot, int M, uint64_t frame,
                       uint64_t *freed) {
    char name[17] = {0};
    struct one *t = NULL;
    uint64_t units = 0;
    memcpy(name, e->name.bytes, e->name.length);
    *freed = 0;
    for (int k = 0; k < *count; k++) {
        if (!strcmp(all[k].name, name)) t = &all[k];
        units += all[k].cost * (frame / all[k].period);
    }
    if (e->kind == PFAIR_KIND_ARRIVE) {
        if (t) return 20;
        if (frame % e->period) return 21;
        if (units + e->cost * (frame / e->period) > (uint64_t)M * frame) return 22;
        struct one n = {.cost = e->cost, .period = e->period, .joined = slot, .next = 1, .early = (int)e->early};
        memcpy(n.name, name, 17);
        all[(*count)++] = n;
        return 0;
    }
    if (!t) return 23;
    if (t->departing) return 24;
    if (e->kind == PFAIR_KIND_DEPART) {
        uint64_t at = slot;
        if (t->next > 1) {
            struct pfair_window w = window_of(t, t->next - 1);
            uint64_t end = 2 * t->cost < t->period ? w.deadline + w.b_bit : w.group_deadline + 1;
            if (end > at) at = end;
        }
        t->departing = 1;
        t->freed_at = at;
        *freed = at;
        return 1;
    }
    if (slot > window_of(t, e->index).release || e->index < t->next) return 25;
    t->from[t->delays] = e->index;
    t->by[t->delays++] = e->by;
    return 2;
}
static int before(const struct one *a, const struct one *b) {
    struct pfair_window x = window_of(a, a->next), y = window_of(b, b->next);
    if (x.deadline != y.deadline) return x.deadline < y.deadline;
    if (x.b_bit != y.b_bit) return x.b_bit > y.b_bit;
    if (x.b_bit && x.group_deadline != y.group_deadline) return x.group_deadline > y.group_deadline;
    return strcmp(a->name, b->name) < 0;
}
static int eligible(const struct one *t, uint64_t slot) {
    uint64_t from = window_of(t, t->next).release;
    int held_back = !t->early || (t->next - 1) % t->cost == 0;
    for (int k = 0; k < t->delays; k++) held_back |= t->from[k] == t->next;
    if (!held_back) from = t->joined;
    return !t->departing && from <= slot;
}

static uint64_t seed = 88172645463325252ull;
static uint64_t draw(uint64_t below) {
    seed ^= seed << 13;
    seed ^= seed >> 7;
    seed ^= seed << 17;
    return seed % below;
}

static void name_equal(struct pfair_name n, const char *wanted, int line) {
    uint8_t padded[16] = {0};
    memcpy(padded, wanted, strlen(wanted));
    CHECK(n.length == strlen(wanted) && !memcmp(n.bytes, padded, 16), "name %.*s wanted %s (line %d)", (int)n.length,
          n.bytes, wanted, line);
}

static long outcomes[32];

/* The quanta of all slots at once are those of the tables and places, slot by slot; of every beginning, and behind it.
 */
static void all_quanta(struct pfair_dispatcher *d, uint64_t slots) {
    uint64_t count = 0, rest = 0, at = 0, n, m, cut = draw(slots + 1);
    ANSWERS(slots ? 103 : 0, pfair_quanta(d, 0, slots, &count, NULL, 0));
    struct pfair_quantum *rows = malloc((count + 1) * sizeof *rows);
    memset(rows, 0x77, (count + 1) * sizeof *rows);
    ANSWERS(0, pfair_quanta(d, 0, cut, &rest, rows, count));
    ANSWERS(0, pfair_quanta(d, cut, slots, &n, rows + rest, count - rest));
    CHECK(rest + n == count, "%d quanta in two parts, %d in one", (int)(rest + n), (int)count);
    for (uint64_t slot = 0; slot < slots; slot++) {
        struct pfair_pick picks[64];
        uint8_t places[64];
        ANSWERS(0, pfair_table(d, slot, &n, picks, 64));
        ANSWERS(0, pfair_places(d, slot, &m, places, 64));
        for (uint64_t k = 0; k < n && at < count; k++, at++)
            CHECK(rows[at].slot == slot && rows[at].row == k && rows[at].place == places[k] &&
                      !memcmp(&rows[at].name, &picks[k].name, sizeof picks[k].name) && rows[at].index == picks[k].index,
                  "quantum %d of slot %d", (int)k, (int)slot);
    }
    CHECK(at == count && rows[count].index == 0x7777777777777777ull, "no row less or more");
    free(rows);
}

/* The same of the decisions. */
static void all_decisions(struct pfair_dispatcher *d, uint64_t slots) {
    uint64_t count = 0, rest = 0, at = 0, n, cut = draw(slots + 1);
    uint32_t answer = pfair_decisions(d, 0, slots, &count, NULL, 0);
    CHECK(answer == (count ? 103 : 0), "answered %" PRIu32, answer);
    struct pfair_decision *rows = malloc((count + 1) * sizeof *rows);
    struct pfair_decision *here = malloc((count + 1) * sizeof *here);
    memset(rows, 0x77, (count + 1) * sizeof *rows);
    ANSWERS(0, pfair_decisions(d, 0, cut, &rest, rows, count));
    ANSWERS(0, pfair_decisions(d, cut, slots, &n, rows + rest, count - rest));
    CHECK(rest + n == count, "%d decisions in two parts, %d in one", (int)(rest + n), (int)count);
    for (uint64_t slot = 0; slot < slots; slot++) {
        ANSWERS(0, pfair_decisions(d, slot, slot + 1, &n, here, count));
        for (uint64_t k = 0; k < n && at < count; k++, at++)
            CHECK(rows[at].slot == slot && !memcmp(&rows[at], &here[k], sizeof *here), "decision %d of slot %d", (int)k,
                  (int)slot);
    }
    CHECK(at == count && rows[count].slot == 0x7777777777777777ull, "no row less or more");
    free(rows);
    free(here);
}

static void random_run(int M, uint64_t slots, int tasks) {
    static const uint64_t periods[] = {1, 2, 3, 4, 6, 8, 12, 24, 5};
    enum { ENTRIES = 24 };
    static struct pfair_entry logs[64][ENTRIES];
    static struct said said[64 * ENTRIES];
    struct pfair_dispatcher d[2] = {PFAIR_NONE, PFAIR_NONE};
    struct one *all = malloc(64 * ENTRIES * sizeof *all);
    int count = 0;
    uint64_t frame = 24, taken;
    for (int k = 0; k < 2; k++) ANSWERS(0, pfair_open(&d[k], (uint8_t)M, frame, slots, ENTRIES + (uint32_t)8));
    for (int p = 0; p < M; p++) {
        uint64_t floor = 0;
        for (int n = 0; n < ENTRIES; n++) {
            char name[8];
            snprintf(name, sizeof name, "t%d", (int)draw((uint64_t)tasks));
            struct pfair_entry e = nothing(floor);
            uint64_t period = periods[draw(9)], at = floor + draw(4);
            switch (draw(6)) {
            case 0:
            case 1:
            case 2:
                e = arrive(name, 1 + draw(period), period, at);
                e.early = draw(2);
                break;
            case 3: e = depart(name, at); break;
            case 4: e = late(name, 1 + draw(30), 1 + draw(6), at); break;
            }
            e.floor = floor;
            if (n == ENTRIES - 1) e = nothing(slots);
            logs[p][n] = e;
            if (draw(3) == 0) floor += draw(slots / 8 + 1);
            if (floor > slots) floor = slots;
        }
    }
    /* each takes every entry in its own order, the second only half of them, and absorbs the rest while they plan */
    for (int k = 0; k < 2; k++)
        for (int round = 0; round < M * ENTRIES; round++) {
            int at = (int)((uint64_t)round * 7919 % (uint64_t)(M * ENTRIES)), p = at % M, n = at / M;
            if (k == 1 && (p + n) % 2) continue;
            ANSWERS(0, take(&d[k], p, (uint32_t)n + 1, logs[p][n], &taken));
        }
    struct pfair_step step;
    do {
        ANSWERS(0, pfair_plan_next(&d[1], &step));
    } while (step.kind == PFAIR_STEP_PLANNED);
    CHECK(step.kind == PFAIR_STEP_WAITING, "half of the entries settle all");
    uint64_t frontier = 99;
    ANSWERS(0, pfair_frontier(&d[1], &frontier));
    CHECK(frontier == step.slot, "the step's slot is the frontier");
    ANSWERS(0, pfair_absorb(&d[1], &d[0]));
    for (int k = 0; k < 2; k++) {
        do {
            ANSWERS(0, pfair_plan_next(&d[k], &step));
        } while (step.kind == PFAIR_STEP_PLANNED);
        CHECK(step.kind == PFAIR_STEP_ALL_PLANNED, "not all planned");
    }
    uint8_t was[64][17] = {{0}};
    uint64_t was_count = 0;
    uint8_t was_place[64] = {0};
    for (uint64_t slot = 0; slot < slots; slot++) {
        struct pfair_decision rows[64 * ENTRIES];
        struct pfair_pick picks[65];
        uint8_t places[65], wanted_place[64], used[64] = {0};
        uint64_t n = 0, wanted = 0, freed;
        gone(all, &count, slot);
        for (int p = 0; p < M; p++)
            for (int k = 0; k < ENTRIES; k++)
                if (logs[p][k].kind && logs[p][k].at == slot) {
                    said[wanted].p = p;
                    said[wanted].n = (uint32_t)k + 1;
                    said[wanted++].e = logs[p][k];
                }
        struct pfair_dispatcher *asked = &d[slot % 2];
        ANSWERS(0, pfair_decisions(asked, slot, slot + 1, &n, rows, 64 * ENTRIES));
        CHECK(n == wanted, "decisions");
        for (uint64_t k = 0; k < n && k < wanted; k++) {
            char name[17] = {0};
            memcpy(name, said[k].e.name.bytes, said[k].e.name.length);
            uint64_t outcome = decide(all, &count, &said[k].e, slot, M, frame, &freed);
            outcomes[outcome]++;
            name_equal(rows[k].name, name, __LINE__);
            CHECK(rows[k].slot == slot && rows[k].processor == (uint64_t)said[k].p && rows[k].number == said[k].n &&
                      rows[k].outcome == outcome && rows[k].freed_at == freed,
                  "decision %d of slot %d: %d wanted %d", (int)k, (int)slot, (int)rows[k].outcome, (int)outcome);
            gone(all, &count, slot);
        }
        struct one *run[64];
        int running = 0;
        for (int k = 0; k < count; k++) {
            if (!eligible(&all[k], slot)) continue;
            int at = running < M ? running++ : M;
            if (at == M) {
                if (!before(&all[k], run[M - 1])) continue;
                at = M - 1;
            }
            while (at > 0 && before(&all[k], run[at - 1])) {
                run[at] = run[at - 1];
                at--;
            }
            run[at] = &all[k];
        }
        memset(picks, 0x77, sizeof picks);
        ANSWERS(0, pfair_table(asked, slot, &n, picks, 65));
        CHECK(n == (uint64_t)running, "rows of slot %d: %d wanted %d", (int)slot, (int)n, running);
        CHECK(picks[n].index == 0x7777777777777777ull, "a row behind was written");
        uint64_t m = 0;
        ANSWERS(0, pfair_places(asked, slot, &m, places, 65));
        CHECK(m == n, "places");
        uint8_t now[64][17] = {{0}};
        for (int k = 0; k < running; k++) {
            name_equal(picks[k].name, run[k]->name, __LINE__);
            CHECK(picks[k].index == run[k]->next, "index");
            run[k]->next++;
            memcpy(now[k], run[k]->name, 17);
            wanted_place[k] = 255;
            for (uint64_t j = 0; j < was_count; j++)
                if (!memcmp(was[j], now[k], 17)) {
                    wanted_place[k] = was_place[j];
                    used[was_place[j]] = 1;
                }
        }
        for (int k = 0; k < running; k++)
            if (wanted_place[k] == 255) {
                uint8_t free_place = 0;
                while (used[free_place]) free_place++;
                used[free_place] = 1;
                wanted_place[k] = free_place;
            }
        CHECK(!memcmp(places, wanted_place, (size_t)running), "places of slot %d", (int)slot);
        memcpy(was, now, sizeof now);
        memcpy(was_place, wanted_place, 64);
        was_count = (uint64_t)running;
    }
    for (int k = 0; k < 2; k++) all_quanta(&d[k], slots);
    for (int k = 0; k < 2; k++) all_decisions(&d[k], slots);
    for (int k = 0; k < 2; k++) ANSWERS(0, pfair_close(&d[k]));
    free(all);
}

/* ---- memory refused */

static uint64_t digest(struct pfair_dispatcher *d) {
    uint64_t n, slots, sum = 1469598103934665603ull;
    struct pfair_pick pick[64];
    uint8_t place[64];
    struct pfair_decision dec[64];
    if (pfair_next_slot(d, &slots)) return 0;
    for (uint64_t slot = 0; slot < slots; slot++) {
        if (pfair_table(d, slot, &n, pick, 64)) return 1;
        for (uint64_t k = 0; k < n; k++)
            for (size_t b = 0; b < sizeof *pick; b++) sum = (sum ^ ((uint8_t *)&pick[k])[b]) * 1099511628211ull;
        if (pfair_places(d, slot, &n, place, 64)) return 2;
        for (uint64_t k = 0; k < n; k++) sum = (sum ^ place[k]) * 1099511628211ull;
        if (pfair_decisions(d, slot, slot + 1, &n, dec, 64)) return 3;
        for (uint64_t k = 0; k < n; k++)
            for (size_t b = 0; b < sizeof *dec; b++) sum = (sum ^ ((uint8_t *)&dec[k])[b]) * 1099511628211ull;
    }
    return sum + slots;
}

static struct pfair_entry plan_of(int p, uint32_t n) {
    char name[32];
    snprintf(name, sizeof name, "p%dn%d", p, (int)n);
    struct pfair_entry e = arrive(name, 1 + n % 3, 4, n / 2);
    if (n % 5 == 4) {
        snprintf(name, sizeof name, "p%dn%d", p, (int)n - 2);
        e = depart(name, n / 2);
    }
    if (n % 5 == 3) {
        snprintf(name, sizeof name, "p%dn%d", p, (int)n - 2);
        e = late(name, 20, 3, n / 2);
    }
    if (n == 20)
        e = nothing(40);
    else
        e.floor = n / 2;
    return e;
}

static _Atomic long spent_seen, partly_seen, memory_seen;

/* One life of two dispatchers, the k-th allocation (and so many after it) refused; what is refused is asked for again.
 */
static uint64_t life(long k, long run, long *allocations) {
    struct pfair_dispatcher d = PFAIR_NONE, o = PFAIR_NONE;
    uint64_t taken, was, sum;
    struct pfair_step s;
    uint32_t answer;
    refuse(k, run);
    if ((answer = pfair_open(&d, 3, 12, 40, 20))) {
        memory_seen++;
        CHECK(answer == 90 && !d.is_open && !d.at, "open: %d", (int)answer);
        while ((answer = pfair_open(&d, 3, 12, 40, 20)) == 90) {
        }
        CHECK(answer == 0, "open again");
    }
    while ((answer = pfair_open(&o, 3, 12, 40, 20)) == 90) memory_seen++;
    CHECK(answer == 0, "open");
    for (int p = 0; p < 3; p++)
        for (uint32_t n = 1; n <= 20; n++) {
            struct pfair_dispatcher *to = (p + n) % 2 ? &d : &o;
            taken = 77;
            while ((answer = take(to, p, n, plan_of(p, n), &taken)) == 90) {
                memory_seen++;
                CHECK(taken == 77, "taken written after 90");
            }
            CHECK(answer == 0 && taken == PFAIR_TAKEN_NEW, "take: %d, taken %d", (int)answer, (int)taken);
        }
    for (int part = 0; part < 2; part++) {
        while ((answer = pfair_absorb(&d, &o)) == 90) {
            memory_seen++;
            partly_seen++;
        }
        CHECK(answer == 0, "absorb");
    }
    for (;;) {
        was = digest(&d);
        uint64_t next, now;
        pfair_next_slot(&d, &next);
        answer = pfair_plan_next(&d, &s);
        if (answer == 0) {
            if (s.kind != PFAIR_STEP_PLANNED) break;
            continue;
        }
        memory_seen++;
        CHECK(answer == 90, "plan: %d", (int)answer);
        CHECK(digest(&d) == was, "what was planned stands");
        pfair_next_slot(&d, &now);
        CHECK(now == next, "the slot isn't planned");
        spent_seen++;
        ANSWERS(31, pfair_plan_next(&d, &s));
        CHECK(digest(&d) == was, "31 changes nothing");
        while ((answer = take(&d, 0, 1, plan_of(0, 1), &taken)) == 90) {
        }
        CHECK(answer == 0 && taken == PFAIR_TAKEN_KNOWN, "take while spent");
        while ((answer = pfair_absorb(&d, &o)) == 90) {
        }
        CHECK(answer == 0, "absorb while spent");
        while ((answer = pfair_reopen(&d)) == 90) {
            memory_seen++;
            ANSWERS(31, pfair_plan_next(&d, &s));
            CHECK(digest(&d) == was, "90 of reopen changes nothing that was planned");
        }
        CHECK(answer == 0, "reopen: %d", (int)answer);
        CHECK(digest(&d) == was, "what was planned stands");
    }
    CHECK(s.kind == PFAIR_STEP_ALL_PLANNED, "kind %d", (int)s.kind);
    sum = digest(&d);
    *allocations = calls;
    ample();
    ANSWERS(0, pfair_close(&d));
    ANSWERS(0, pfair_close(&o));
    return sum;
}

static void memory(void) {
    long all = 0, none, at_first = blocks;
    uint64_t wanted = life(0, 0, &all);
    for (long k = 1; k <= all; k++)
        for (long run = 1; run <= 3; run++) {
            uint64_t got = life(k, run, &none);
            CHECK(got == wanted, "refused %ld run %ld: other rows", k, run);
            CHECK(blocks == at_first, "%ld blocks not freed", blocks - at_first);
        }
    printf("memory: %ld allocations refused in turn, alone and with the next one or two; 90 was answered %ld times, "
           "%ld dispatchers were spent, %ld absorbs were partial; allocations of 0 bytes: %ld\n",
           all, memory_seen, spent_seen, partly_seen, zero_sizes);
    CHECK(memory_seen && spent_seen && partly_seen, "not all of it was reached");
    /* torn and spent: 30 goes first */
    struct pfair_dispatcher d = PFAIR_NONE;
    uint64_t taken;
    struct pfair_step s;
    ANSWERS(0, pfair_open(&d, 1, 12, 40, 20));
    for (uint32_t n = 1; n <= 20; n++) ANSWERS(0, take(&d, 0, n, plan_of(0, n), &taken));
    for (int k = 0; k < 8; k++) ANSWERS(0, pfair_plan_next(&d, &s));
    refuse(1, 1000000);
    do {
        taken = pfair_plan_next(&d, &s);
    } while (taken == 0 && s.kind == PFAIR_STEP_PLANNED);
    CHECK(taken == 90, "planned all without memory");
    ANSWERS(31, pfair_plan_next(&d, &s));
    ANSWERS(90, pfair_reopen(&d));
    ANSWERS(31, pfair_plan_next(&d, &s));
    ANSWERS(0, take(&d, 0, 20, nothing(39), &taken));
    CHECK(taken == PFAIR_TAKEN_TORN, "a torn entry needs no memory");
    ANSWERS(30, pfair_plan_next(&d, &s));
    ANSWERS(30, pfair_reopen(&d));
    CHECK(s.processor == 0 && s.number == 20, "which");
    ample();
    ANSWERS(0, pfair_close(&d));
}

/* ---- limits */

static void limits(uint64_t slots) {
    struct pfair_dispatcher d = PFAIR_NONE;
    uint64_t taken, n, quanta = 0;
    struct pfair_step s;
    struct pfair_pick pick[64];
    char name[20];
    largest = 0;
    ANSWERS(0, pfair_open(&d, 64, 1000000000, slots, 4096));
    for (uint32_t k = 1; k <= 64; k++) {
        snprintf(name, sizeof name, "t%d", (int)k);
        ANSWERS(0, take(&d, (int)k - 1, 1, arrive(name, 999999999, 1000000000, 0), &taken));
    }
    for (int p = 0; p < 64; p++) {
        ANSWERS(0, take(&d, p, 2, nothing(slots), &taken));
        ANSWERS(0, take(&d, p, 4096, nothing(1000000), &taken));
    }
    uint64_t most = slots < 20000 ? slots : 20000;
    for (uint64_t slot = 0; slot < most; slot++) {
        ANSWERS(0, pfair_plan_next(&d, &s));
        CHECK(s.kind == 0 && s.slot == slot, "plan");
        ANSWERS(0, pfair_table(&d, slot, &n, pick, 64));
        quanta += n;
    }
    CHECK(quanta >= most * 63 && quanta <= most * 64, "%" PRIu64 " quanta of 64 processors", quanta);
    ANSWERS(0, pfair_close(&d));
    ANSWERS(0, pfair_open(&d, 1, 1000000000, slots, 2));
    ANSWERS(0, take(&d, 0, 1, arrive("a", 2, 5, 0), &taken));
    ANSWERS(0, take(&d, 0, 2, nothing(1000000), &taken));
    quanta = 0;
    for (uint64_t slot = 0; slot < slots; slot++) {
        ANSWERS(0, pfair_plan_next(&d, &s));
        ANSWERS(0, pfair_table(&d, slot, &n, pick, 1));
        quanta += n;
    }
    ANSWERS(0, pfair_plan_next(&d, &s));
    CHECK(s.kind == PFAIR_STEP_ALL_PLANNED, "all");
    CHECK(quanta == slots / 5 * 2, "%d quanta", (int)quanta);
    uint64_t next;
    ANSWERS(0, pfair_next_slot(&d, &next));
    CHECK(next == slots, "next");
    ANSWERS(104, pfair_table(&d, slots, &n, pick, 1));
    ANSWERS(0, pfair_close(&d));
    printf("the largest block that was asked for: %zu bytes\n", largest);
}

/* The lags of so many slots in one call: `ROWED` rows for each slot, of which the first and the last slots' are known. */
static void many_lags(uint64_t slots) {
    enum { ROWED = 11 };
    struct pfair_dispatcher d = PFAIR_NONE;
    struct pfair_step s;
    struct pfair_lag last[ROWED], *rows = malloc((slots * ROWED + 1) * sizeof *rows);
    uint64_t taken, count = 77;
    char name[20];
    ANSWERS(0, pfair_open(&d, 1, 12, slots, 20));
    for (uint32_t k = 1; k <= ROWED; k++) {
        snprintf(name, sizeof name, "t%d", (int)k);
        ANSWERS(0, take(&d, 0, k, arrive(name, 1, 12, 0), &taken));
    }
    ANSWERS(0, take(&d, 0, ROWED + 1, nothing(1000000), &taken));
    ANSWERS(0, pfair_plan_to(&d, slots, &s));
    ANSWERS(103, pfair_lags(&d, 0, slots, &count, rows, slots * ROWED - 1));
    CHECK(count == slots * ROWED, "%" PRIu64 " rows", count);
    rows[slots * ROWED].time = 77;
    ANSWERS(0, pfair_lags(&d, 0, slots, &count, rows, slots * ROWED));
    CHECK(count == slots * ROWED && rows[count].time == 77, "%" PRIu64 " rows written", count);
    ANSWERS(0, pfair_lags(&d, slots - 1, slots, &count, last, ROWED));
    CHECK(!memcmp(last, rows + (slots - 1) * ROWED, sizeof last), "the last rows");
    for (uint64_t k = 0; k < slots * ROWED; k++) {
        /* each runs once in 12 slots, so its lag is at most 11 twelfths */
        int right = rows[k].time == k / ROWED + 1 && rows[k].period == 12 && rows[k].numerator >= -11 && rows[k].numerator <= 11;
        if (!right) CHECK(right, "row %" PRIu64, k);
    }
    free(rows);
    ANSWERS(0, pfair_close(&d));
}

/* ---- threads: a handle each, with little stack; and one handle that goes from thread to thread */

static void *in_thread(void *at) {
    long none;
    *(uint64_t *)at = life(0, 0, &none);
    return at;
}
static void threads(void) {
    long none;
    uint64_t wanted = life(0, 0, &none);
    for (size_t stack = 262144; stack >= 16384; stack /= 2) {
        pthread_t t[4];
        uint64_t got[4];
        pthread_attr_t attributes;
        pthread_attr_init(&attributes);
        pthread_attr_setstacksize(&attributes, stack);
        for (int k = 0; k < 4; k++) pthread_create(&t[k], &attributes, in_thread, &got[k]);
        for (int k = 0; k < 4; k++) {
            pthread_join(t[k], NULL);
            CHECK(got[k] == wanted, "a thread of %zu bytes of stack", stack);
        }
        pthread_attr_destroy(&attributes);
    }
}

struct handed {
    struct pfair_dispatcher d;
    uint64_t slot;
};

/* One plan in a thread of its own, which is joined before the next one begins. */
static void *one_plan(void *at) {
    struct handed *handed = at;
    struct pfair_step s = {0, 0, 0, 0};
    if (pfair_plan_next(&handed->d, &s) == 0 && s.kind == PFAIR_STEP_PLANNED && s.slot == handed->slot) handed->slot++;
    return at;
}

static void handed_on(void) {
    struct handed handed = {PFAIR_NONE, 0};
    uint64_t taken;
    ANSWERS(0, pfair_open(&handed.d, 1, 12, 40, 20));
    for (uint32_t n = 1; n <= 20; n++) ANSWERS(0, take(&handed.d, 0, n, plan_of(0, n), &taken));
    for (int k = 0; k < 40; k++) {
        pthread_t thread;
        pthread_create(&thread, NULL, one_plan, &handed);
        pthread_join(thread, NULL);
    }
    CHECK(handed.slot == 40, "%d slots planned by as many threads", (int)handed.slot);
    ANSWERS(0, pfair_close(&handed.d));
}

int main(int count, char **words) {
    int quick = count > 1 && !strcmp(words[1], "quick");
    long at_first = blocks;
    for (int k = 0; k < (quick ? 40 : 600); k++) random_run(1 + (int)draw(4), 20 + draw(60), 3 + (int)draw(12));
    random_run(64, 60, 200);
    for (int k = 0; k < 3; k++) CHECK(outcomes[k] > 0, "outcome %d not met", k);
    for (int k = 20; k < 26; k++) CHECK(outcomes[k] > 0, "outcome %d not met", k);
    memory();
    limits(quick ? 20000 : 1000000);
    many_lags(quick ? 2000 : 1000000);
    CHECK(blocks == at_first, "%ld blocks not freed", blocks - at_first);
    threads();
    handed_on();
    return told();
}
