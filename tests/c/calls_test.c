/*
 * Each answer that the header names, at its bounds, and in the stated order if several apply; what must not be
 * written or changed; torn logs, fallen floors, and the contents. It counts what holds and prints what doesn't.
 */
#include "checks.h"

/* ---- windows */

__extension__ typedef unsigned __int128 wide;

static void windows(void) {
    struct pfair_window w, mark;
    memset(&mark, 0x5a, sizeof mark);
#define BAD(wanted, ...)                                \
    do {                                                \
        w = mark;                                       \
        ANSWERS(wanted, pfair_window(__VA_ARGS__, &w)); \
        CHECK(!memcmp(&w, &mark, sizeof w), "written"); \
    } while (0)
    BAD(4, 0, 5, 1, 0);
    BAD(4, 0, 0, 1, 0);
    BAD(4, 0, UINT64_MAX, 0, UINT64_MAX);
    BAD(5, 1, 0, 1, 0);
    BAD(5, 6, 5, 1, 0);
    BAD(5, UINT64_MAX, 1000000001, 1, 0);
    BAD(5, UINT64_MAX, UINT64_MAX - 1, 0, 0);
    BAD(6, 1, 1000000001, 1, 0);
    BAD(6, UINT64_MAX, UINT64_MAX, 1, 0);
    BAD(6, 1, 1000000001, 0, 0);
    BAD(100, 1, 2, 0, 0);
    BAD(100, 1, 2, 1000002, 0);
    BAD(100, 1, 2, UINT64_MAX, 0);
    BAD(100, 1, 2, 1, (1ull << 40) + 1);
    BAD(100, 1, 2, 1, UINT64_MAX);
    static const uint64_t periods[] = {1, 2, 3, 5, 7, 11, 24, 97, 1000, 999999937, 1000000000};
    static const uint64_t indexes[] = {1, 2, 3, 8, 9, 100, 999999, 1000000, 1000001};
    static const uint64_t thetas[] = {0, 1, 12345, 1ull << 40};
    for (size_t p = 0; p < sizeof periods / 8; p++)
        for (int c = 0; c < 7; c++)
            for (size_t i = 0; i < sizeof indexes / 8; i++)
                for (size_t t = 0; t < 4; t++) {
                    uint64_t P = periods[p], costs[] = {1, P / 2, P / 2 + 1, P > 1 ? P - 1 : 1, P, P / 3, P * 2 / 3},
                             E = costs[c], I = indexes[i], T = thetas[t];
                    if (!E || E > P) continue;
                    wide e = E, q = P, k = I, cut = k * q / e, up = (k * q + e - 1) / e, group = 0;
                    if (2 * E >= P) group = E == P ? up : (((up * (q - e) + q - 1) / q) * q + (q - e) - 1) / (q - e);
                    ANSWERS(0, pfair_window(E, P, I, T, &w));
                    CHECK(w.release == T + (uint64_t)((k - 1) * q / e), "release");
                    CHECK(w.deadline == T + (uint64_t)up, "deadline");
                    CHECK(w.b_bit == (uint64_t)(up - cut), "b-bit");
                    CHECK(w.group_deadline == (group ? T + (uint64_t)group : 0),
                          "group deadline of %" PRIu64 "/%" PRIu64, E, P);
                }
}

/* ---- the slots in which a task ran */

typedef uint32_t look(uint64_t, uint64_t, uint64_t, struct pfair_miss *, uint64_t *, const uint64_t *, size_t);

/* A call's answer, and what it wrote over 7, 8, 9 and 6, as kind, index, slot and place. */
static void looked(int line, look *call, uint32_t wanted, uint64_t kind, uint64_t index, uint64_t slot, uint64_t at,
                   uint64_t cost, uint64_t period, uint64_t horizon, const uint64_t *picks, size_t length) {
    struct pfair_miss m = {7, 8, 9};
    uint64_t place = 6;
    ANSWERS(wanted, call(cost, period, horizon, &m, &place, picks, length));
    CHECK(m.kind == kind && m.index == index && m.slot == slot && place == at,
          "of line %d: %" PRIu64 " %" PRIu64 " %" PRIu64 " at %" PRIu64, line, m.kind, m.index, m.slot, place);
}
#define REFUSED(wanted, at, ...)                                              \
    do {                                                                      \
        looked(__LINE__, pfair_first_miss, wanted, 7, 8, 9, at, __VA_ARGS__); \
        looked(__LINE__, pfair_first_late, wanted, 7, 8, 9, at, __VA_ARGS__); \
    } while (0)
#define FOUND(call, kind, index, slot, ...) looked(__LINE__, call, 0, kind, index, slot, 6, __VA_ARGS__)

static void misses(void) {
    static const uint64_t picks[] = {0, 2, 4}, twice[] = {0, 2, 2}, falling[] = {0, 2, 1, 0}, far[] = {0, 2, 1000000};
    static const uint64_t tardy[] = {3, 5, 5}, shared[] = {1, 1};
    REFUSED(4, 6, 0, 2, 1000001, falling, 4);
    REFUSED(4, 6, 0, 0, 4, NULL, 0);
    REFUSED(5, 6, 3, 2, 1000001, falling, 4);
    REFUSED(5, 6, UINT64_MAX, 1000000001, 4, picks, 3);
    REFUSED(6, 6, 1, 1000000001, UINT64_MAX, falling, 4);
    REFUSED(100, 6, 1, 2, 1000001, falling, 4);
    REFUSED(100, 6, 1, 2, UINT64_MAX, NULL, 0);
    REFUSED(40, 2, 1, 2, 6, twice, 3);
    REFUSED(40, 2, 1, 2, 6, falling, 4);
    REFUSED(40, 2, 1, 2, 9, tardy, 3);
    REFUSED(40, 1, 8, 11, 9, shared, 2);
    REFUSED(41, 2, 1, 2, 4, picks, 3);
    REFUSED(41, 1, 1, 2, 1, falling, 4);
    REFUSED(41, 0, 1, 2, 0, picks, 1);
    REFUSED(41, 2, 1, 2, 1000000, far, 3);
    FOUND(pfair_first_miss, PFAIR_MISS_NONE, 0, 0, 1, 2, 6, picks, 3);
    FOUND(pfair_first_miss, PFAIR_MISS_NONE, 0, 0, 1, 2, 0, NULL, 0);
    FOUND(pfair_first_miss, PFAIR_MISS_EARLY, 2, 2, 1, 3, 6, picks, 3);
    FOUND(pfair_first_miss, PFAIR_MISS_TARDY, 2, 2, 1, 1, 6, picks, 3);
    FOUND(pfair_first_miss, PFAIR_MISS_UNSERVED, 4, 0, 1, 2, 8, picks, 3);
    FOUND(pfair_first_miss, PFAIR_MISS_UNSERVED, 1, 0, 1, 1, 1000000, NULL, 0);
    FOUND(pfair_first_miss, PFAIR_MISS_EARLY, 2, 2, 1, 1000000000, 1000000, far, 2);
    FOUND(pfair_first_late, PFAIR_MISS_NONE, 0, 0, 1, 3, 6, picks, 3);
    FOUND(pfair_first_late, PFAIR_MISS_TARDY, 2, 2, 1, 1, 6, picks, 3);
    FOUND(pfair_first_late, PFAIR_MISS_UNSERVED, 4, 0, 1, 2, 8, picks, 3);
    FOUND(pfair_first_late, PFAIR_MISS_NONE, 0, 0, 1, 1000000000, 1000000, far, 2);
}

/* Every set of slots below 10, for every weight up to period 6, beside the windows. */
static void all_misses(void) {
    for (uint64_t period = 1; period <= 6; period++)
        for (uint64_t cost = 1; cost <= period; cost++)
            for (unsigned set = 0; set < 1024; set++) {
                uint64_t picks[10], n = 0, kind = 0, index = 0, slot = 0, late_kind = 0, late_index = 0, late_slot = 0;
                for (uint64_t t = 0; t < 10; t++)
                    if (set >> t & 1) picks[n++] = t;
                for (uint64_t i = 1; i <= n + 1; i++) {
                    struct pfair_window w;
                    ANSWERS(0, pfair_window(cost, period, i, 0, &w));
                    uint64_t at = i <= n ? picks[i - 1] : 0;
                    uint64_t is = i > n ? (w.deadline <= 10 ? 3 : 0) : at < w.release ? 1 : at >= w.deadline ? 2 : 0;
                    if (!kind && is) kind = is, index = i, slot = at;
                    if (!late_kind && is > 1) late_kind = is, late_index = i, late_slot = at;
                }
                FOUND(pfair_first_miss, kind, index, slot, cost, period, 10, picks, n);
                FOUND(pfair_first_late, late_kind, late_index, late_slot, cost, period, 10, picks, n);
            }
}

/* ---- handles */

static void same_handle(struct pfair_dispatcher a, struct pfair_dispatcher b, int line) {
    CHECK(a.is_open == b.is_open && a.at == b.at, "handle changed, line %d", line);
}

static void openings(void) {
    struct pfair_dispatcher d = PFAIR_NONE, none = PFAIR_NONE, kept;
    ANSWERS(102, pfair_close(&d));
#define BAD_OPEN(...)                              \
    do {                                           \
        ANSWERS(100, pfair_open(&d, __VA_ARGS__)); \
        same_handle(d, none, __LINE__);            \
    } while (0)
    BAD_OPEN(0, 1, 1, 1);
    BAD_OPEN(65, 1, 1, 1);
    BAD_OPEN(255, 1, 1, 1);
    BAD_OPEN(1, 0, 1, 1);
    BAD_OPEN(1, 1000000001, 1, 1);
    BAD_OPEN(1, UINT64_MAX, 1, 1);
    BAD_OPEN(1, 1, 0, 1);
    BAD_OPEN(1, 1, 1000001, 1);
    BAD_OPEN(1, 1, UINT64_MAX, 1);
    BAD_OPEN(1, 1, 1, 0);
    BAD_OPEN(1, 1, 1, 4097);
    BAD_OPEN(1, 1, 1, UINT32_MAX);
    ANSWERS(0, pfair_open(&d, 1, 1, 1, 1));
    CHECK(d.is_open && d.at, "not open");
    kept = d;
    ANSWERS(101, pfair_open(&d, 1, 1, 1, 1));
    same_handle(d, kept, __LINE__);
    ANSWERS(101, pfair_open(&d, 0, 1, 1, 1));
    same_handle(d, kept, __LINE__);
    ANSWERS(0, pfair_close(&d));
    same_handle(d, none, __LINE__);
    ANSWERS(102, pfair_close(&d));
    same_handle(d, none, __LINE__);
    ANSWERS(0, pfair_open(&d, 64, 1000000000, 1000000, 4096));
    ANSWERS(0, pfair_close(&d));
}

static void not_open(void) {
    struct pfair_dispatcher d = PFAIR_NONE, o = PFAIR_NONE;
    struct pfair_step s = {7, 7, 7, 7};
    struct pfair_entry e = {.kind = 9};
    uint64_t n = 77, slot = 77;
    struct pfair_pick pick;
    struct pfair_decision dec;
    uint8_t place = 9;
    memset(&pick, 9, sizeof pick);
    memset(&dec, 9, sizeof dec);
    ANSWERS(102, pfair_take(&d, 255, 0, &e, &n));
    ANSWERS(102, pfair_absorb(&d, &o));
    ANSWERS(102, pfair_plan_next(&d, &s));
    ANSWERS(102, pfair_reserve(&d, 1, 1));
    ANSWERS(102, pfair_forget(&d, 1));
    ANSWERS(102, pfair_reopen(&d));
    ANSWERS(102, pfair_frontier(&d, &slot));
    ANSWERS(102, pfair_next_slot(&d, &slot));
    ANSWERS(102, pfair_table(&d, 0, &n, &pick, 0));
    ANSWERS(102, pfair_places(&d, UINT64_MAX, &n, &place, 1));
    ANSWERS(102, pfair_decisions(&d, 0, 1, &n, &dec, 1));
    CHECK(n == 77 && slot == 77 && place == 9 && pick.index == 0x0909090909090909ull &&
              dec.number == 0x0909090909090909ull,
          "written");
    CHECK(s.kind == 7 && s.slot == 7 && s.processor == 7 && s.number == 7, "step written");
    ANSWERS(0, pfair_open(&o, 2, 6, 6, 4));
    ANSWERS(102, pfair_absorb(&d, &o));
    ANSWERS(102, pfair_absorb(&o, &d));
    ANSWERS(0, pfair_close(&o));
}

/* ---- entries: each fault, and each pair of faults in the stated order */

struct fault {
    uint32_t answer;
    int rank;
    void (*make)(struct pfair_entry *, int *, uint32_t *);
    int kinds; /* bit k: of kind k */
};
#define FAULT(name, body)                                          \
    static void name(struct pfair_entry *e, int *p, uint32_t *n) { \
        (void)e;                                                   \
        (void)p;                                                   \
        (void)n;                                                   \
        body;                                                      \
    }
FAULT(f_kind, e->kind = 4)
FAULT(f_kind2, e->kind = UINT64_MAX)
FAULT(f_early, e->early = 2)
FAULT(f_early2, e->early = UINT64_MAX)
FAULT(f_empty, e->name.length = 0) FAULT(f_long, e->name.length = 17) FAULT(f_long2, e->name.length = UINT64_MAX)
    FAULT(f_byte, e->name.bytes[0] = 'A') FAULT(f_digit, e->name.bytes[0] = '1') FAULT(f_under, e->name.bytes[0] = '_')
        FAULT(f_nul, e->name.bytes[1] = 0) FAULT(f_high, e->name.bytes[2] = 0xe9) FAULT(f_zero, e->cost = 0)
            FAULT(f_over, e->cost = e->period + 1) FAULT(f_period, e->period = 1000000001)
                FAULT(f_floor, e->floor = 1000001) FAULT(f_at, e->at = 1000001)
                    FAULT(f_before, (e->floor = 6, e->at = 5)) FAULT(f_index0, e->index = 0)
                        FAULT(f_index, e->index = 1000001) FAULT(f_by0, e->by = 0) FAULT(f_by, e->by = 1048577)
                            FAULT(f_processor, *p = 2) FAULT(f_processor2, *p = 255) FAULT(f_number0, *n = 0)
                                FAULT(f_number, *n = 9) static const
    struct fault faults[] = {
        {100, 0, f_kind, 15},    {100, 0, f_kind2, 15},  {100, 0, f_early, 2},      {100, 0, f_early2, 2},
        {1, 1, f_empty, 14},     {2, 2, f_long, 14},     {2, 2, f_long2, 14},       {3, 3, f_byte, 14},
        {3, 3, f_digit, 14},     {3, 3, f_under, 14},    {3, 3, f_nul, 14},         {3, 3, f_high, 14},
        {4, 4, f_zero, 2},       {5, 5, f_over, 2},      {6, 6, f_period, 2},       {8, 7, f_floor, 15},
        {8, 7, f_at, 14},        {7, 8, f_before, 14},   {10, 9, f_index0, 8},      {10, 9, f_index, 8},
        {9, 10, f_by0, 8},       {9, 10, f_by, 8},       {13, 11, f_processor, 15}, {13, 11, f_processor2, 15},
        {14, 12, f_number0, 15}, {14, 12, f_number, 15},
};
enum { FAULTS = sizeof faults / sizeof *faults };

static struct pfair_entry good(uint64_t kind) {
    struct pfair_entry e = {.floor = 3, .kind = kind, .at = 4, .cost = 2, .period = 3, .early = 1, .index = 5, .by = 2};
    e.name = pfair_name_of("a_long_name_17_by");
    CHECK(e.name.length == 17 && !memcmp(e.name.bytes, "a_long_name_17_b", 16), "%" PRIu64 " bytes", e.name.length);
    e.name = pfair_name_of("a_long_name_16_b");
    return e;
}

static void fault_pairs(void) {
    struct pfair_dispatcher d = PFAIR_NONE;
    uint64_t taken;
    ANSWERS(0, pfair_open(&d, 2, 6, 6, 8));
    for (uint64_t kind = 0; kind < 4; kind++) {
        for (int a = 0; a < FAULTS; a++)
            for (int b = 0; b < FAULTS; b++) {
                struct pfair_entry e = good(kind);
                int p = 1, applies_a = faults[a].kinds >> kind & 1, applies_b = faults[b].kinds >> kind & 1;
                uint32_t n = 1;
                if (!applies_a && !applies_b) continue;
                faults[a].make(&e, &p, &n);
                faults[b].make(&e, &p, &n);
                const struct fault *first = !applies_a                         ? &faults[b]
                                            : !applies_b                       ? &faults[a]
                                            : faults[a].rank <= faults[b].rank ? &faults[a]
                                                                               : &faults[b];
                /* two of the same field undo one another, and a long name's length hides an empty one */
                if (applies_a && applies_b && a != b &&
                    (faults[a].make == f_long || faults[a].make == f_long2 || faults[a].make == f_empty) &&
                    faults[b].rank <= 2)
                    continue;
                if ((faults[a].make == f_floor || faults[b].make == f_floor || faults[a].make == f_at ||
                     faults[b].make == f_at) &&
                    (faults[a].make == f_before || faults[b].make == f_before))
                    continue;
                if (faults[a].rank == faults[b].rank && a != b) continue;
                if ((faults[a].make == f_over || faults[b].make == f_over) &&
                    (faults[a].make == f_zero || faults[b].make == f_zero || faults[a].make == f_period ||
                     faults[b].make == f_period))
                    continue;
                if (e.kind > 3 && first->answer != 100) continue;
                taken = 77;
                uint32_t got = take(&d, p, n, e, &taken);
                CHECK(got == first->answer, "kind %d faults %d %d: answered %" PRIu32 ", wanted %" PRIu32, (int)kind, a,
                      b, got, first->answer);
                CHECK(taken == 77, "taken written");
            }
        struct pfair_entry e = good(kind);
        ANSWERS(0, take(&d, 1, (uint32_t)kind + 1, e, &taken));
        CHECK(taken == PFAIR_TAKEN_NEW, "nothing was changed by the refused ones");
        ANSWERS(0, take(&d, 1, (uint32_t)kind + 1, e, &taken));
        CHECK(taken == PFAIR_TAKEN_KNOWN, "known");
        /* what a kind doesn't need isn't looked at */
        if (kind != 1) e.cost = e.period = e.early = 99;
        if (kind != 3) e.index = e.by = UINT64_MAX;
        if (kind == 0) {
            e.at = UINT64_MAX;
            memset(&e.name, 0xff, sizeof e.name);
        }
        ANSWERS(0, take(&d, 1, (uint32_t)kind + 1, e, &taken));
        CHECK(taken == PFAIR_TAKEN_KNOWN, "what a kind doesn't need is no part of the entry: kind %d taken %d",
              (int)kind, (int)taken);
        /* bytes behind a name aren't looked at */
        if (kind) {
            e = good(kind);
            e.name.length = 3;
            uint64_t was;
            ANSWERS(0, take(&d, 0, (uint32_t)kind, e, &was));
            memset(e.name.bytes + 3, 0xee, 13);
            ANSWERS(0, take(&d, 0, (uint32_t)kind, e, &taken));
            CHECK(taken == PFAIR_TAKEN_KNOWN, "bytes behind a name");
        }
    }
    /* bounds that are taken */
    struct pfair_entry e = late("a", 1000000, 1048576, 1000000);
    e.floor = 1000000;
    ANSWERS(0, take(&d, 0, 8, e, &taken));
    CHECK(taken == PFAIR_TAKEN_NEW, "new");
    e = arrive("zzzzzzzzzzzzzzzz", 1000000000, 1000000000, 0);
    ANSWERS(0, take(&d, 0, 7, e, &taken));
    CHECK(taken == PFAIR_TAKEN_NEW, "new");
    e.early = 1;
    ANSWERS(0, take(&d, 0, 7, e, &taken));
    CHECK(taken == PFAIR_TAKEN_TORN, "torn");
    e.early = 0;
    ANSWERS(0, take(&d, 0, 7, e, &taken));
    CHECK(taken == PFAIR_TAKEN_TORN, "torn stays");
    ANSWERS(0, pfair_close(&d));
}

/* ---- rooms, frontiers, torn logs */

static void rooms(void) {
    struct pfair_dispatcher d = PFAIR_NONE;
    struct pfair_step s;
    uint64_t taken, n = 77;
    struct pfair_pick pick[3];
    uint8_t place[3];
    struct pfair_decision dec[3];
    ANSWERS(0, pfair_open(&d, 2, 6, 4, 5));
    memset(&s, 7, sizeof s);
    ANSWERS(0, pfair_plan_next(&d, &s));
    CHECK(s.kind == PFAIR_STEP_WAITING && s.slot == 0, "plan of nothing");
    ANSWERS(104, pfair_table(&d, 0, &n, pick, 3));
    ANSWERS(104, pfair_places(&d, 0, &n, place, 0));
    ANSWERS(104, pfair_decisions(&d, 0, 1, &n, dec, 0));
    ANSWERS(104, pfair_decisions(&d, UINT64_MAX - 1, UINT64_MAX, &n, dec, 0));
    CHECK(n == 77, "count written");
    ANSWERS(0, pfair_reopen(&d));
    ANSWERS(0, take(&d, 0, 1, arrive("a", 1, 1, 0), &taken));
    ANSWERS(0, take(&d, 0, 2, arrive("b", 1, 2, 0), &taken));
    ANSWERS(0, take(&d, 0, 3, nothing(4), &taken));
    ANSWERS(0, pfair_frontier(&d, &n));
    CHECK(n == 0, "frontier");
    ANSWERS(0, take(&d, 1, 2, nothing(3), &taken));
    ANSWERS(0, pfair_frontier(&d, &n));
    CHECK(n == 0, "frontier behind a gap");
    ANSWERS(0, take(&d, 1, 1, nothing(2), &taken));
    ANSWERS(0, pfair_frontier(&d, &n));
    CHECK(n == 3, "frontier");
    ANSWERS(0, take(&d, 1, 3, nothing(2), &taken));
    ANSWERS(0, pfair_frontier(&d, &n));
    CHECK(n == 3, "a fallen floor ends it");
    ANSWERS(0, take(&d, 1, 4, nothing(4), &taken));
    ANSWERS(0, pfair_frontier(&d, &n));
    CHECK(n == 3, "a fallen floor ends it");
    for (int k = 0; k < 3; k++) {
        ANSWERS(0, pfair_plan_next(&d, &s));
        CHECK(s.kind == 0 && s.slot == (uint64_t)k, "planned");
    }
    ANSWERS(0, pfair_plan_next(&d, &s));
    CHECK(s.kind == PFAIR_STEP_WAITING && s.slot == 3, "waiting");
    ANSWERS(0, pfair_next_slot(&d, &n));
    CHECK(n == 3, "next");
    memset(pick, 0x33, sizeof pick);
    memset(place, 0x33, 3);
    memset(dec, 0x33, sizeof dec);
    for (size_t room = 0; room < 2; room++) {
        n = 77;
        ANSWERS(103, pfair_table(&d, 0, &n, pick, room));
        CHECK(n == 2, "count");
        n = 77;
        ANSWERS(103, pfair_places(&d, 0, &n, place, room));
        CHECK(n == 2, "count");
        n = 77;
        ANSWERS(103, pfair_decisions(&d, 0, 1, &n, dec, room));
        CHECK(n == 2, "count");
    }
    CHECK(pick[0].index == 0x3333333333333333ull && place[0] == 0x33 && dec[0].outcome == 0x3333333333333333ull,
          "rows written though there is no room");
    ANSWERS(0, pfair_decisions(&d, 1, 2, &n, dec, 0));
    CHECK(n == 0, "no decisions in room 0");
    /* torn, also behind the frontier and behind what is planned */
    ANSWERS(0, take(&d, 1, 3, nothing(9), &taken));
    CHECK(taken == PFAIR_TAKEN_TORN, "torn");
    memset(&s, 0x44, sizeof s);
    ANSWERS(30, pfair_plan_next(&d, &s));
    CHECK(s.processor == 1 && s.number == 3, "the torn one");
    CHECK(s.kind == 0x4444444444444444ull && s.slot == 0x4444444444444444ull, "step's kind and slot written after 30");
    ANSWERS(30, pfair_reopen(&d));
    ANSWERS(0, take(&d, 0, 3, nothing(5), &taken));
    ANSWERS(30, pfair_plan_next(&d, &s));
    CHECK(s.processor == 0 && s.number == 3, "the least torn one");
    ANSWERS(0, pfair_frontier(&d, &n));
    CHECK(n == 0, "the frontier falls where an entry of a sound beginning is torn");
    ANSWERS(0, pfair_table(&d, 0, &n, pick, 3));
    CHECK(n == 2, "what was planned stands");
    ANSWERS(0, pfair_next_slot(&d, &n));
    CHECK(n == 3, "what was planned stands");
    ANSWERS(0, pfair_close(&d));
    /* after all is planned */
    ANSWERS(0, pfair_open(&d, 1, 1, 1, 2));
    ANSWERS(0, take(&d, 0, 1, nothing(1), &taken));
    ANSWERS(0, pfair_plan_next(&d, &s));
    CHECK(s.kind == 0 && s.slot == 0, "planned");
    ANSWERS(0, pfair_plan_next(&d, &s));
    CHECK(s.kind == PFAIR_STEP_ALL_PLANNED, "all");
    CHECK(s.slot == 0 && s.processor == 0 && s.number == 0, "the step after the last slot");
    ANSWERS(0, take(&d, 0, 1, nothing(0), &taken));
    ANSWERS(30, pfair_plan_next(&d, &s));
    ANSWERS(0, pfair_close(&d));
}

static void shapes(void) {
    struct pfair_dispatcher a = PFAIR_NONE, b = PFAIR_NONE;
    uint64_t taken, n;
    struct pfair_step s;
    ANSWERS(0, pfair_open(&a, 2, 6, 4, 5));
    ANSWERS(0, pfair_open(&b, 3, 6, 4, 5));
    ANSWERS(15, pfair_absorb(&a, &b));
    ANSWERS(15, pfair_absorb(&b, &a));
    pfair_close(&b);
    ANSWERS(0, pfair_open(&b, 2, 6, 4, 6));
    ANSWERS(15, pfair_absorb(&a, &b));
    ANSWERS(15, pfair_absorb(&b, &a));
    pfair_close(&b);
    /* another frame or other slots are no other shape */
    ANSWERS(0, pfair_open(&b, 2, 12, 9, 5));
    ANSWERS(0, take(&b, 0, 1, arrive("a", 5, 12, 0), &taken));
    ANSWERS(0, take(&b, 0, 2, nothing(9), &taken));
    ANSWERS(0, take(&b, 1, 1, nothing(9), &taken));
    ANSWERS(0, pfair_absorb(&a, &b));
    ANSWERS(0, pfair_frontier(&a, &n));
    CHECK(n == 9, "frontier past the slots");
    ANSWERS(0, pfair_plan_next(&a, &s));
    CHECK(s.kind == 0, "planned");
    struct pfair_decision dec;
    ANSWERS(0, pfair_decisions(&a, 0, 1, &n, &dec, 1));
    CHECK(n == 1 && dec.outcome == PFAIR_OUTCOME_PERIOD_OUTSIDE_FRAME, "period outside frame");
    /* torn by a join; the other stays whole */
    ANSWERS(0, take(&a, 1, 2, nothing(9), &taken));
    ANSWERS(0, take(&b, 1, 2, nothing(10), &taken));
    ANSWERS(0, pfair_absorb(&a, &b));
    ANSWERS(30, pfair_plan_next(&a, &s));
    CHECK(s.processor == 1 && s.number == 2, "torn");
    ANSWERS(0, pfair_plan_next(&b, &s));
    CHECK(s.kind == 0, "the other goes on");
    ANSWERS(0, pfair_absorb(&b, &a));
    ANSWERS(30, pfair_plan_next(&b, &s));
    pfair_close(&a);
    pfair_close(&b);
}

/* ---- the contents */

static void same_entry(struct pfair_entry a, struct pfair_entry b, int line) {
    CHECK(!memcmp(&a, &b, sizeof a), "another entry, line %d", line);
}

static void held_entries(void) {
    struct pfair_dispatcher d = PFAIR_NONE;
    struct pfair_entry wanted[] = {nothing(1), arrive("a_long_name_16_b", 2, 3, 4), depart("b", 5), late("c", 6, 7, 8)},
                       got, mark;
    uint64_t kind = 77, taken;
    memset(&mark, 0x5a, sizeof mark);
    wanted[1].early = 1;
    got = mark;
    ANSWERS(102, pfair_held(&d, 0, 1, &kind, &got));
    ANSWERS(0, pfair_open(&d, 2, 6, 6, 8));
    ANSWERS(13, pfair_held(&d, 2, 1, &kind, &got));
    ANSWERS(13, pfair_held(&d, 255, 0, &kind, &got));
    ANSWERS(14, pfair_held(&d, 1, 0, &kind, &got));
    ANSWERS(14, pfair_held(&d, 1, 9, &kind, &got));
    ANSWERS(14, pfair_held(&d, 0, UINT32_MAX, &kind, &got));
    CHECK(kind == 77, "written");
    same_entry(got, mark, __LINE__);
    ANSWERS(0, pfair_held(&d, 1, 8, &kind, &got));
    CHECK(kind == PFAIR_HELD_NOTHING, "nothing is held");
    same_entry(got, mark, __LINE__);
    for (uint32_t k = 0; k < 4; k++) {
        ANSWERS(0, take(&d, 1, k + 2, wanted[k], &taken));
        memset(&got, 0x5a, sizeof got);
        ANSWERS(0, pfair_held(&d, 1, k + 2, &kind, &got));
        CHECK(kind == PFAIR_HELD_ENTRY, "held");
        same_entry(got, wanted[k], __LINE__);
        /* what is given out is taken for the same */
        ANSWERS(0, take(&d, 1, k + 2, got, &taken));
        CHECK(taken == PFAIR_TAKEN_KNOWN, "known");
        ANSWERS(0, pfair_held(&d, 0, k + 2, &kind, &got));
        CHECK(kind == PFAIR_HELD_NOTHING, "of the other processor");
    }
    ANSWERS(0, take(&d, 1, 3, nothing(9), &taken));
    got = mark;
    ANSWERS(0, pfair_held(&d, 1, 3, &kind, &got));
    CHECK(kind == PFAIR_HELD_TORN, "torn");
    same_entry(got, mark, __LINE__);
    ANSWERS(0, pfair_close(&d));
}

static void logs(void) {
    struct pfair_dispatcher d = PFAIR_NONE;
    uint64_t slot = 77, count = 77, number = 77, taken;
    ANSWERS(102, pfair_mark(&d, 0, &slot, &count));
    ANSWERS(102, pfair_missing(&d, 0, &number));
    ANSWERS(0, pfair_open(&d, 3, 6, 6, 4));
    ANSWERS(13, pfair_mark(&d, 3, &slot, &count));
    ANSWERS(13, pfair_mark(&d, 255, &slot, &count));
    ANSWERS(13, pfair_missing(&d, 3, &number));
    ANSWERS(13, pfair_missing(&d, 200, &number));
    CHECK(slot == 77 && count == 77 && number == 77, "written");
    ANSWERS(0, pfair_mark(&d, 2, &slot, &count));
    CHECK(slot == 0 && count == 0, "an empty log");
    ANSWERS(0, pfair_missing(&d, 2, &number));
    CHECK(number == 1, "an empty log");
    ANSWERS(0, take(&d, 2, 1, nothing(3), &taken));
    ANSWERS(0, take(&d, 2, 2, nothing(5), &taken));
    ANSWERS(0, take(&d, 2, 4, nothing(9), &taken));
    ANSWERS(0, pfair_mark(&d, 2, &slot, &count));
    CHECK(slot == 5 && count == 2, "a sound beginning");
    ANSWERS(0, pfair_missing(&d, 2, &number));
    CHECK(number == 3, "the gap");
    ANSWERS(0, pfair_mark(&d, 1, &slot, &count));
    CHECK(slot == 0 && count == 0, "another log");
    ANSWERS(0, take(&d, 2, 3, nothing(4), &taken));
    ANSWERS(0, pfair_mark(&d, 2, &slot, &count));
    CHECK(slot == 5 && count == 2, "a fallen floor");
    ANSWERS(0, pfair_missing(&d, 2, &number));
    CHECK(number == 0, "all are held");
    ANSWERS(0, pfair_close(&d));
}

static void faulty(void) {
    struct pfair_dispatcher d = PFAIR_NONE;
    struct pfair_key rows[4], mark[4];
    uint64_t torn = 77, fallen = 77, taken;
    memset(mark, 0x33, sizeof mark);
    memcpy(rows, mark, sizeof rows);
    ANSWERS(102, pfair_faults(&d, &torn, &fallen, rows, 4));
    CHECK(torn == 77 && fallen == 77, "written");
    ANSWERS(0, pfair_open(&d, 3, 6, 6, 4));
    ANSWERS(0, pfair_faults(&d, &torn, &fallen, NULL, 0));
    CHECK(torn == 0 && fallen == 0, "no faults");
    ANSWERS(0, take(&d, 2, 4, nothing(1), &taken));
    ANSWERS(0, take(&d, 2, 4, nothing(2), &taken));
    ANSWERS(0, take(&d, 0, 3, nothing(1), &taken));
    ANSWERS(0, take(&d, 0, 3, nothing(2), &taken));
    ANSWERS(0, take(&d, 1, 1, nothing(5), &taken));
    ANSWERS(0, take(&d, 1, 2, nothing(4), &taken));
    for (size_t room = 0; room < 3; room++) {
        torn = fallen = 77;
        ANSWERS(103, pfair_faults(&d, &torn, &fallen, rows, room));
        CHECK(torn == 2 && fallen == 1, "counts");
    }
    CHECK(!memcmp(rows, mark, sizeof rows), "rows written though there is no room");
    ANSWERS(0, pfair_faults(&d, &torn, &fallen, rows, 4));
    CHECK(torn == 2 && fallen == 1, "counts");
    CHECK(rows[0].processor == 0 && rows[0].number == 3 && rows[1].processor == 2 && rows[1].number == 4,
          "the torn ones, in order");
    CHECK(rows[2].processor == 1 && rows[2].number == 2, "the fallen one behind them");
    CHECK(!memcmp(&rows[3], &mark[3], sizeof *rows), "a row behind was written");
    refuse(1, 1000000);
    torn = fallen = 77;
    memcpy(rows, mark, sizeof rows);
    ANSWERS(90, pfair_faults(&d, &torn, &fallen, rows, 4));
    CHECK(torn == 77 && fallen == 77 && !memcmp(rows, mark, sizeof rows), "written after 90");
    ample();
    ANSWERS(0, pfair_close(&d));
}

static void below(void) {
    struct pfair_dispatcher d = PFAIR_NONE, o = PFAIR_NONE;
    uint64_t is = 77, taken;
    ANSWERS(102, pfair_below(&d, &o, &is));
    ANSWERS(0, pfair_open(&d, 2, 6, 6, 4));
    ANSWERS(102, pfair_below(&d, &o, &is));
    ANSWERS(102, pfair_below(&o, &d, &is));
    ANSWERS(100, pfair_below(&d, &d, &is));
    ANSWERS(100, pfair_absorb(&d, &d));
    CHECK(is == 77, "written");
    ANSWERS(0, pfair_open(&o, 2, 6, 6, 4));
    ANSWERS(0, pfair_below(&d, &o, &is));
    CHECK(is == 1, "nothing is below nothing");
    ANSWERS(0, take(&o, 1, 2, nothing(3), &taken));
    ANSWERS(0, pfair_below(&d, &o, &is));
    CHECK(is == 1, "nothing is below all");
    ANSWERS(0, pfair_below(&o, &d, &is));
    CHECK(is == 0, "an entry more");
    ANSWERS(0, take(&d, 1, 2, nothing(4), &taken));
    ANSWERS(0, pfair_below(&o, &d, &is));
    CHECK(is == 0, "another entry");
    ANSWERS(0, pfair_absorb(&d, &o));
    ANSWERS(0, pfair_below(&o, &d, &is));
    CHECK(is == 1, "torn is above each");
    ANSWERS(0, pfair_below(&d, &o, &is));
    CHECK(is == 0, "torn is below nothing else");
    ANSWERS(0, pfair_close(&d));
    ANSWERS(0, pfair_close(&o));
}

static void opened_with(void) {
    struct pfair_dispatcher d = PFAIR_NONE;
    struct pfair_settings s = {7, 7, 7, 7};
    ANSWERS(102, pfair_settings(&d, &s));
    CHECK(s.processors == 7 && s.frame == 7 && s.slots == 7 && s.capacity == 7, "written");
    ANSWERS(0, pfair_open(&d, 63, 999999999, 999999, 4095));
    ANSWERS(0, pfair_settings(&d, &s));
    CHECK(s.processors == 63 && s.frame == 999999999 && s.slots == 999999 && s.capacity == 4095, "settings");
    ANSWERS(0, pfair_close(&d));
    CHECK(pfair_version() == PFAIR_VERSION_NUMBER, "the library's version is not the header's");
}

/* ---- several plans at once */

static void planned_to(void) {
    struct pfair_dispatcher d = PFAIR_NONE;
    struct pfair_step s = {7, 7, 7, 7};
    uint64_t taken, next;
    ANSWERS(102, pfair_plan_to(&d, 0, &s));
    ANSWERS(102, pfair_plan_to(&d, 3, &s));
    ANSWERS(0, pfair_open(&d, 1, 6, 9, 4));
    ANSWERS(100, pfair_plan_to(&d, 0, &s));
    CHECK(s.kind == 7 && s.slot == 7 && s.processor == 7 && s.number == 7, "written");
    ANSWERS(0, take(&d, 0, 1, arrive("a", 1, 2, 0), &taken));
    ANSWERS(0, take(&d, 0, 2, nothing(6), &taken));
    ANSWERS(0, pfair_plan_to(&d, 1, &s));
    CHECK(s.kind == PFAIR_STEP_PLANNED && s.slot == 0 && s.processor == 0 && s.number == 0, "the first slot");
    ANSWERS(0, pfair_plan_to(&d, 4, &s));
    CHECK(s.kind == PFAIR_STEP_PLANNED && s.slot == 3, "four slots");
    ANSWERS(0, pfair_next_slot(&d, &next));
    CHECK(next == 4, "no slot more than was asked for");
    ANSWERS(0, pfair_plan_to(&d, 2, &s));
    CHECK(s.kind == PFAIR_STEP_PLANNED && s.slot == 1, "planned before");
    ANSWERS(0, pfair_next_slot(&d, &next));
    CHECK(next == 4, "no slot more");
    ANSWERS(0, pfair_plan_to(&d, UINT64_MAX, &s));
    CHECK(s.kind == PFAIR_STEP_WAITING && s.slot == 6, "up to the frontier");
    ANSWERS(0, pfair_next_slot(&d, &next));
    CHECK(next == 6, "up to the frontier");
    ANSWERS(0, take(&d, 0, 3, nothing(20), &taken));
    refuse(1, 1000000);
    ANSWERS(90, pfair_plan_to(&d, 9, &s));
    ANSWERS(31, pfair_plan_to(&d, 9, &s));
    CHECK(s.kind == PFAIR_STEP_WAITING && s.slot == 6, "written");
    ample();
    ANSWERS(0, pfair_plan_to(&d, 6, &s));
    CHECK(s.kind == PFAIR_STEP_PLANNED && s.slot == 5, "no plan is wanted of a spent one");
    ANSWERS(0, pfair_reopen(&d));
    ANSWERS(0, pfair_plan_to(&d, 10, &s));
    CHECK(s.kind == PFAIR_STEP_ALL_PLANNED && s.slot == 0, "all");
    ANSWERS(0, pfair_plan_to(&d, 9, &s));
    CHECK(s.kind == PFAIR_STEP_PLANNED && s.slot == 8, "the last slot");
    ANSWERS(0, take(&d, 0, 2, nothing(7), &taken));
    ANSWERS(0, pfair_plan_to(&d, 9, &s));
    ANSWERS(30, pfair_plan_to(&d, 10, &s));
    CHECK(s.kind == PFAIR_STEP_PLANNED && s.slot == 8 && s.processor == 0 && s.number == 2, "torn");
    ANSWERS(0, pfair_close(&d));
}

/* Neither of them counts as waiting or as done. */
static void refused_to(struct pfair_dispatcher *d, uint32_t answer, uint64_t number, int line) {
    for (int next = 0; next < 2; next++) {
        struct pfair_step s = {7, 7, 7, 7};
        uint32_t got = next ? pfair_plan_next(d, &s) : pfair_plan_to(d, UINT64_MAX, &s);
        CHECK(got == answer, "answered %" PRIu32 ", line %d", got, line);
        CHECK(s.kind == 7 && s.slot == 7 && s.processor == (number ? 0 : 7) && s.number == (number ? number : 7),
              "the step, line %d", line);
    }
}

static void neither_torn_nor_spent(void) {
    static const uint64_t floors[] = {3, 6};
    for (int is_done = 0; is_done < 2; is_done++) {
        struct pfair_dispatcher d = PFAIR_NONE;
        struct pfair_step s;
        uint64_t taken, kind = is_done ? PFAIR_STEP_ALL_PLANNED : PFAIR_STEP_WAITING;
        ANSWERS(0, pfair_open(&d, 1, 6, 6, 5));
        ANSWERS(0, take(&d, 0, 1, arrive("a", 1, 2, 0), &taken));
        ANSWERS(0, take(&d, 0, 2, nothing(floors[is_done]), &taken));
        ANSWERS(0, pfair_plan_to(&d, UINT64_MAX, &s));
        CHECK(s.kind == kind, "as far as it comes");
        /* spent */
        refuse(1, 1000000);
        ANSWERS(90, pfair_reopen(&d));
        ample();
        refused_to(&d, 31, 0, __LINE__);
        ANSWERS(0, pfair_plan_to(&d, floors[is_done], &s));
        CHECK(s.kind == PFAIR_STEP_PLANNED && s.slot == floors[is_done] - 1, "planned before");
        /* torn goes before spent */
        ANSWERS(0, take(&d, 0, 4, nothing(8), &taken));
        ANSWERS(0, take(&d, 0, 4, nothing(9), &taken));
        CHECK(taken == PFAIR_TAKEN_TORN, "torn");
        refused_to(&d, 30, 4, __LINE__);
        ANSWERS(30, pfair_reopen(&d));
        refused_to(&d, 30, 4, __LINE__);
        ANSWERS(0, pfair_close(&d));
        /* torn */
        ANSWERS(0, pfair_open(&d, 1, 6, 6, 5));
        ANSWERS(0, take(&d, 0, 1, nothing(floors[is_done]), &taken));
        ANSWERS(0, pfair_plan_to(&d, UINT64_MAX, &s));
        CHECK(s.kind == kind, "as far as it comes");
        ANSWERS(0, take(&d, 0, 3, nothing(8), &taken));
        ANSWERS(0, take(&d, 0, 3, nothing(9), &taken));
        refused_to(&d, 30, 3, __LINE__);
        ANSWERS(0, pfair_close(&d));
    }
}

static void several_slots(void) {
    struct pfair_dispatcher d = PFAIR_NONE;
    struct pfair_step s;
    struct pfair_quantum rows[3], mark[3];
    uint64_t taken, count = 77;
    memset(mark, 0x33, sizeof mark);
    memcpy(rows, mark, sizeof rows);
    ANSWERS(102, pfair_quanta(&d, 0, 0, &count, rows, 3));
    ANSWERS(102, pfair_decisions(&d, 0, 0, &count, NULL, 0));
    ANSWERS(0, pfair_open(&d, 1, 6, 6, 4));
    ANSWERS(0, take(&d, 0, 1, arrive("a", 1, 2, 0), &taken));
    ANSWERS(0, take(&d, 0, 2, nothing(4), &taken));
    ANSWERS(0, pfair_plan_to(&d, 6, &s));
    CHECK(s.kind == PFAIR_STEP_WAITING && s.slot == 4, "four slots");
    ANSWERS(104, pfair_quanta(&d, 0, 5, &count, rows, 3));
    ANSWERS(104, pfair_quanta(&d, 9, UINT64_MAX, &count, rows, 3));
    CHECK(count == 77, "written");
    ANSWERS(0, pfair_quanta(&d, 4, 4, &count, NULL, 0));
    CHECK(count == 0, "no slots");
    ANSWERS(0, pfair_quanta(&d, UINT64_MAX, 4, &count, rows, 0));
    CHECK(count == 0, "slots the other way round");
    ANSWERS(103, pfair_quanta(&d, 0, 4, &count, rows, 1));
    CHECK(count == 2, "count");
    CHECK(!memcmp(rows, mark, sizeof rows), "rows written though there is no room");
    ANSWERS(0, pfair_quanta(&d, 0, 4, &count, rows, 3));
    CHECK(count == 2, "count");
    CHECK(rows[0].slot == 0 && rows[0].row == 0 && rows[0].place == 0 && rows[0].index == 1 && rows[1].slot == 2 &&
              rows[1].index == 2 && rows[1].name.length == 1,
          "the quanta");
    CHECK(!memcmp(&rows[2], &mark[2], sizeof *rows), "a row behind was written");
    ANSWERS(0, pfair_quanta(&d, 1, 3, &count, rows, 1));
    CHECK(count == 1 && rows[0].slot == 2, "from slot 1 on");
    struct pfair_decision said[2];
    memset(said, 0x33, sizeof said);
    count = 77;
    ANSWERS(104, pfair_decisions(&d, 0, 5, &count, said, 2));
    CHECK(count == 77, "written");
    ANSWERS(103, pfair_decisions(&d, 0, 4, &count, said, 0));
    CHECK(count == 1 && said[0].slot == 0x3333333333333333ull, "count alone");
    ANSWERS(0, pfair_decisions(&d, 1, 4, &count, NULL, 0));
    CHECK(count == 0, "none behind slot 0");
    ANSWERS(0, pfair_decisions(&d, 0, 4, &count, said, 2));
    CHECK(count == 1 && said[0].slot == 0 && said[0].number == 1, "the arrival");
    CHECK(said[0].outcome == PFAIR_OUTCOME_ADMITTED, "its outcome");
    CHECK(said[1].slot == 0x3333333333333333ull, "a row behind was written");
    ANSWERS(0, pfair_close(&d));
}

int main(void) {
    long at_first = blocks;
    windows();
    misses();
    all_misses();
    openings();
    not_open();
    fault_pairs();
    rooms();
    shapes();
    held_entries();
    logs();
    faulty();
    below();
    opened_with();
    planned_to();
    neither_torn_nor_spent();
    several_slots();
    CHECK(blocks == at_first, "%ld blocks not freed", blocks - at_first);
    return told();
}
