/*
 * The calls that give or take several rows at once: windows and entries of a log, beside the calls that give or take
 * one, lags, and members. It counts what holds and prints what doesn't.
 */
#include "checks.h"

/* ---- windows */

static void several_windows(void) {
    struct pfair_window rows[9], mark[9], one;
    memset(mark, 0x5a, sizeof mark);
#define NONE(wanted, ...)                                   \
    do {                                                    \
        memcpy(rows, mark, sizeof rows);                    \
        ANSWERS(wanted, pfair_windows(__VA_ARGS__));        \
        CHECK(!memcmp(rows, mark, sizeof rows), "written"); \
    } while (0)
    NONE(4, 0, 0, 0, 9, UINT64_MAX, rows, 1);
    NONE(5, 1, 0, 0, 9, 0, rows, 1);
    NONE(5, 7, 6, 1, 1, 0, rows, 1);
    NONE(6, 1, 1000000001, 0, 9, 0, rows, 1);
    NONE(100, 1, 2, 0, 1, 0, rows, 9);
    NONE(100, 1, 2, 0, 0, 0, NULL, 0);
    NONE(100, 1, 2, 1000002, 1, 0, rows, 0);
    NONE(100, 1, 2, 1000003, 0, 0, rows, 9);
    NONE(100, 1, 2, 1000001, 2, 0, rows, 0);
    NONE(100, 1, 2, 1, 1000002, 0, rows, 9);
    NONE(100, 1, 2, 2, UINT64_MAX, 0, rows, 9);
    NONE(100, 1, 2, UINT64_MAX, UINT64_MAX, 0, rows, 9);
    NONE(100, 1, 2, 1, 1, (1ull << 40) + 1, rows, 9);
    NONE(103, 1, 2, 1, 9, 0, rows, 8);
    NONE(103, 1, 2, 1, 1, 0, NULL, 0);
    NONE(103, 1, 2, 1, 1000001, 0, rows, 9);
    NONE(0, 1, 2, 1, 0, 0, NULL, 0);
    NONE(0, 1, 2, 1000002, 0, 0, rows, 9);
    static const uint64_t weights[][2] = {{1, 1}, {1, 2}, {8, 11}, {3, 7}, {999999999, 1000000000}, {1, 1000000000}};
    static const uint64_t firsts[] = {1, 2, 77, 999995, 1000001};
    for (size_t w = 0; w < sizeof weights / sizeof *weights; w++)
        for (size_t f = 0; f < sizeof firsts / 8; f++)
            for (uint64_t count = 0; count < 9 && firsts[f] + count <= 1000002; count++) {
                uint64_t theta = f * 1000 + w;
                memcpy(rows, mark, sizeof rows);
                ANSWERS(0, pfair_windows(weights[w][0], weights[w][1], firsts[f], count, theta, rows, 9));
                for (uint64_t k = 0; k < count; k++) {
                    ANSWERS(0, pfair_window(weights[w][0], weights[w][1], firsts[f] + k, theta, &one));
                    CHECK(!memcmp(&one, &rows[k], sizeof one), "window %d of %" PRIu64, (int)k, count);
                }
                CHECK(!memcmp(rows + count, mark, (9 - count) * sizeof *rows), "a row behind was written");
            }
}

/* ---- a log */

static void same_counts(struct pfair_taken_log got, uint64_t taken, uint64_t fresh, uint64_t known, uint64_t torn) {
    CHECK(got.taken == taken && got.fresh == fresh && got.known == known && got.torn == torn,
          "counted %" PRIu64 " %" PRIu64 " %" PRIu64 " %" PRIu64, got.taken, got.fresh, got.known, got.torn);
}

static void whole_logs(void) {
    struct pfair_dispatcher d = PFAIR_NONE, o = PFAIR_NONE;
    struct pfair_taken_log counted = {7, 7, 7, 7};
    struct pfair_entry log[] = {arrive("a", 1, 2, 0), late("a", 2, 3, 1), depart("a", 3), nothing(4)}, kept[4], bad[4];
    uint64_t taken, is;
    memcpy(kept, log, sizeof log);
    ANSWERS(102, pfair_take_log(&d, 0, 1, &counted, log, 4));
    same_counts(counted, 7, 7, 7, 7);
    ANSWERS(0, pfair_open(&d, 2, 6, 6, 5));
    ANSWERS(0, pfair_open(&o, 2, 6, 6, 5));
    /* a log or a number that isn't there, with entries and with none */
    for (size_t length = 0; length < 5; length += 4) {
        static const struct {
            uint32_t answer, first;
            uint8_t processor;
        } absent[] = {{13, 1, 2}, {13, 1, 255}, {13, 0, 2}, {13, 6, 9},         {14, 0, 0},
                      {14, 0, 1}, {14, 6, 0},   {14, 6, 1}, {14, UINT32_MAX, 1}};
        for (size_t k = 0; k < sizeof absent / sizeof *absent; k++) {
            counted = (struct pfair_taken_log){7, 7, 7, 7};
            ANSWERS(absent[k].answer,
                    pfair_take_log(&d, absent[k].processor, absent[k].first, &counted, length ? log : NULL, length));
            same_counts(counted, 0, 0, 0, 0);
        }
    }
    for (uint32_t first = 1; first < 6; first++) {
        counted = (struct pfair_taken_log){7, 7, 7, 7};
        ANSWERS(0, pfair_take_log(&d, first % 2, first, &counted, NULL, 0));
        same_counts(counted, 0, 0, 0, 0);
    }
    ANSWERS(0, pfair_below(&d, &o, &is));
    CHECK(is == 1, "nothing was taken");
    /* as one call for each entry */
    ANSWERS(0, pfair_take_log(&d, 1, 1, &counted, log, 4));
    same_counts(counted, 4, 4, 0, 0);
    for (uint32_t k = 0; k < 4; k++) ANSWERS(0, take(&o, 1, k + 1, log[k], &taken));
    ANSWERS(0, pfair_below(&d, &o, &is));
    CHECK(is == 1, "no more than that");
    ANSWERS(0, pfair_below(&o, &d, &is));
    CHECK(is == 1, "no less than that");
    /* behind the last number */
    ANSWERS(14, pfair_take_log(&d, 1, 5, &counted, log, 2));
    same_counts(counted, 1, 1, 0, 0);
    /* known, torn, new */
    ANSWERS(0, pfair_take_log(&o, 1, 3, &counted, log + 1, 3));
    same_counts(counted, 3, 1, 0, 2);
    ANSWERS(0, pfair_take_log(&o, 1, 1, &counted, log, 4));
    same_counts(counted, 4, 0, 2, 2);
    /* what is refused ends it, and what was taken before stands */
    memcpy(bad, log, sizeof log);
    bad[2].name.length = 17;
    bad[3].kind = 4;
    ANSWERS(2, pfair_take_log(&o, 0, 1, &counted, bad, 4));
    same_counts(counted, 2, 2, 0, 0);
    ANSWERS(0, take(&o, 0, 2, log[1], &taken));
    CHECK(taken == PFAIR_TAKEN_KNOWN, "the one before stands");
    ANSWERS(0, take(&o, 0, 3, log[2], &taken));
    CHECK(taken == PFAIR_TAKEN_NEW, "the refused one wasn't taken");
    ANSWERS(100, pfair_take_log(&o, 0, 4, &counted, bad + 3, 1));
    same_counts(counted, 0, 0, 0, 0);
    /* the log and its first number are looked at before an entry */
    ANSWERS(13, pfair_take_log(&o, 9, 0, &counted, bad + 3, 1));
    ANSWERS(14, pfair_take_log(&o, 0, 6, &counted, bad + 3, 1));
    /* and an entry before its own number */
    ANSWERS(0, pfair_take_log(&o, 0, 5, &counted, log + 3, 1));
    struct pfair_entry last[] = {log[3], bad[3]};
    ANSWERS(100, pfair_take_log(&o, 0, 5, &counted, last, 2));
    same_counts(counted, 1, 0, 1, 0);
    CHECK(!memcmp(kept, log, sizeof log), "the entries were written");
    ANSWERS(0, pfair_close(&d));
    ANSWERS(0, pfair_close(&o));
    /* memory refused at each place: what was taken stands, and the rest goes on from there */
    for (long at = 1; at < 12; at++) {
        ANSWERS(0, pfair_open(&d, 1, 6, 6, 64));
        struct pfair_entry many[64];
        for (uint64_t k = 0; k < 64; k++) many[k] = nothing(k);
        refuse(at, 1);
        uint32_t answer = pfair_take_log(&d, 0, 1, &counted, many, 64);
        ample();
        CHECK(answer == 0 || answer == 90, "answered %" PRIu32, answer);
        CHECK((answer == 0) == (counted.taken == 64) && counted.fresh == counted.taken, "counted");
        uint32_t n = (uint32_t)counted.taken;
        ANSWERS(0, pfair_missing(&d, 0, &is));
        CHECK(is == (n == 64 ? 0 : n + 1), "those before stand");
        if (n < 64) {
            ANSWERS(0, pfair_take_log(&d, 0, n + 1, &counted, many + n, 64 - n));
            same_counts(counted, 64 - n, 64 - n, 0, 0);
        }
        ANSWERS(0, pfair_close(&d));
    }
}

/* ---- lags */

static void same_lag(struct pfair_lag got, uint64_t time, const char *name, int64_t numerator, uint64_t period) {
    struct pfair_name wanted = pfair_name_of(name);
    CHECK(got.time == time && !memcmp(&got.name, &wanted, sizeof wanted) && got.numerator == numerator &&
              got.period == period,
          "at %" PRIu64 " of %.16s: %" PRId64 "/%" PRIu64, got.time, got.name.bytes, got.numerator, got.period);
}

static void lags(void) {
    struct pfair_dispatcher d = PFAIR_NONE;
    struct pfair_lag rows[9], mark[9];
    struct pfair_step s;
    /* one processor: a of 1/2 and b of 1/3 from slot 0 on, and b departs at 4 */
    struct pfair_entry log[] = {arrive("a", 1, 2, 0), arrive("b", 1, 3, 0), depart("b", 4), nothing(6)};
    struct pfair_taken_log counted;
    uint64_t count = 77;
    memset(mark, 0x33, sizeof mark);
    memcpy(rows, mark, sizeof rows);
    ANSWERS(102, pfair_lags(&d, 0, 0, &count, rows, 9));
    ANSWERS(0, pfair_open(&d, 1, 6, 8, 4));
    ANSWERS(0, pfair_take_log(&d, 0, 1, &counted, log, 4));
    ANSWERS(104, pfair_lags(&d, 0, 1, &count, rows, 9));
    ANSWERS(0, pfair_plan_to(&d, 8, &s));
    CHECK(s.kind == PFAIR_STEP_WAITING && s.slot == 6, "six slots");
    ANSWERS(104, pfair_lags(&d, 0, 7, &count, rows, 9));
    ANSWERS(104, pfair_lags(&d, UINT64_MAX, UINT64_MAX, &count, rows, 9));
    CHECK(count == 77, "written");
    ANSWERS(0, pfair_lags(&d, 6, 6, &count, NULL, 0));
    CHECK(count == 0, "no slots");
    ANSWERS(0, pfair_lags(&d, UINT64_MAX, 6, &count, rows, 9));
    CHECK(count == 0, "slots the other way round");
    ANSWERS(103, pfair_lags(&d, 0, 6, &count, NULL, 0));
    CHECK(count == 10, "two tasks in four slots, and one in two");
    ANSWERS(103, pfair_lags(&d, 0, 5, &count, rows, 8));
    CHECK(count == 9, "count");
    CHECK(!memcmp(rows, mark, sizeof rows), "rows written though there is no room");
    ANSWERS(0, pfair_lags(&d, 0, 5, &count, rows, 9));
    CHECK(count == 9, "count");
    same_lag(rows[0], 1, "a", -1, 2);
    same_lag(rows[1], 1, "b", 1, 3);
    same_lag(rows[2], 2, "a", 0, 2);
    same_lag(rows[3], 2, "b", -1, 3);
    same_lag(rows[4], 3, "a", -1, 2);
    same_lag(rows[5], 3, "b", 0, 3);
    same_lag(rows[6], 4, "a", 0, 2);
    same_lag(rows[7], 4, "b", -2, 3);
    same_lag(rows[8], 5, "a", -1, 2);
    memcpy(rows, mark, sizeof rows);
    ANSWERS(0, pfair_lags(&d, 3, 6, &count, rows, 9));
    CHECK(count == 4, "from slot 3 on");
    same_lag(rows[0], 4, "a", 0, 2);
    same_lag(rows[1], 4, "b", -2, 3);
    same_lag(rows[2], 5, "a", -1, 2);
    same_lag(rows[3], 6, "a", 0, 2);
    CHECK(!memcmp(rows + 4, mark, 5 * sizeof *rows), "a row behind was written");
    /* memory refused at each place */
    long refusals = 0;
    for (long at = 1;; at++) {
        count = 77;
        refuse(at, 1);
        uint32_t answer = pfair_lags(&d, 0, 4, &count, rows, 9);
        ample();
        if (answer == 0) break;
        CHECK(answer == 90 && count == 77, "answered %" PRIu32, answer);
        refusals++;
    }
    CHECK(count == 8 && refusals > 1, "%ld refusals", refusals);
    ANSWERS(0, pfair_close(&d));
}

/* ---- members */

static void same_member(struct pfair_member got, const char *name, uint64_t period, uint64_t early, uint64_t joined,
                        uint64_t next, uint64_t theta, uint64_t freed_at, int64_t lag) {
    struct pfair_name wanted = pfair_name_of(name);
    CHECK(!memcmp(&got.name, &wanted, sizeof wanted) && got.cost == 1 && got.period == period && got.early == early &&
              got.joined == joined && got.next == next && got.theta == theta && got.is_departing == (freed_at != 0) &&
              got.freed_at == freed_at && got.lag == lag,
          "%.16s: next %" PRIu64 ", theta %" PRIu64 ", freed at %" PRIu64 ", lag %" PRId64, got.name.bytes, got.next,
          got.theta, got.freed_at, got.lag);
}

/* One processor: z of 1/2 from slot 0 on, its second subtask late by 3; b of 1/3 from slot 2 on, which departs at 4. */
static uint64_t members_after(uint64_t slots, struct pfair_member *rows) {
    uint64_t theta = slots < 2 ? 0 : 3, next = slots < 6 ? 2 : 3,
             count = slots < 1                ? 0
                     : slots < 3 || slots > 5 ? 1
                                              : 2;
    static const int64_t lags_of_z[] = {0, -1, 0, 1, 2, 3, 2, 3}, lags_of_b[] = {0, 0, 0, -2, -1, 0};
    if (count > 0) same_member(rows[0], "z", 2, 0, 0, next, theta, 0, lags_of_z[slots]);
    if (count > 1) same_member(rows[1], "b", 3, 1, 2, 2, 2, slots < 5 ? 0 : 5, lags_of_b[slots]);
    return count;
}

static void members(void) {
    struct pfair_dispatcher d = PFAIR_NONE;
    struct pfair_member rows[3], mark[3];
    struct pfair_step s;
    struct pfair_window w;
    struct pfair_entry log[] = {arrive("z", 1, 2, 0), late("z", 2, 3, 1),   arrive("b", 1, 3, 2),
                                depart("b", 4),       arrive("c", 1, 4, 4), nothing(7)};
    struct pfair_taken_log counted;
    uint64_t count = 77, taken;
    log[2].early = 1;
    memset(mark, 0x33, sizeof mark);
    memcpy(rows, mark, sizeof rows);
    ANSWERS(102, pfair_members(&d, &count, rows, 3));
    ANSWERS(0, pfair_open(&d, 1, 6, 9, 9));
    ANSWERS(0, pfair_take_log(&d, 0, 1, &counted, log, 6));
    CHECK(count == 77, "written");
    long asked = calls;
    for (uint64_t slots = 0; slots < 8; slots++) {
        if (slots) ANSWERS(0, pfair_plan_to(&d, slots, &s));
        memcpy(rows, mark, sizeof rows);
        asked = calls;
        ANSWERS(0, pfair_members(&d, &count, rows, 3));
        CHECK(count == members_after(slots, rows), "%" PRIu64 " members after %" PRIu64 " slots", count, slots);
        CHECK(!memcmp(rows + count, mark, (3 - count) * sizeof *rows), "a row behind was written");
        CHECK(asked == calls, "it wants no memory");
    }
    /* the next subtask's window */
    ANSWERS(0, pfair_window(rows[0].cost, rows[0].period, rows[0].next, rows[0].theta, &w));
    CHECK(w.release == 7 && w.deadline == 9, "the window of the third subtask");
    ANSWERS(0, pfair_close(&d));
    /* rooms */
    ANSWERS(0, pfair_open(&d, 1, 6, 9, 9));
    ANSWERS(0, pfair_members(&d, &count, NULL, 0));
    CHECK(count == 0, "nobody");
    ANSWERS(0, pfair_take_log(&d, 0, 1, &counted, log, 6));
    ANSWERS(0, pfair_plan_to(&d, 5, &s));
    memcpy(rows, mark, sizeof rows);
    for (size_t room = 0; room < 2; room++) {
        count = 77;
        ANSWERS(103, pfair_members(&d, &count, rows, room));
        CHECK(count == 2, "count");
    }
    CHECK(!memcmp(rows, mark, sizeof rows), "rows written though there is no room");
    /* spent, and reopened */
    refuse(1, 1000000);
    ANSWERS(90, pfair_reopen(&d));
    ample();
    count = 77;
    ANSWERS(31, pfair_members(&d, &count, rows, 3));
    CHECK(count == 77 && !memcmp(rows, mark, sizeof rows), "written after 31");
    ANSWERS(0, pfair_reopen(&d));
    ANSWERS(0, pfair_members(&d, &count, rows, 2));
    CHECK(count == members_after(5, rows), "as before");
    /* torn, behind what is planned */
    ANSWERS(0, take(&d, 0, 8, nothing(8), &taken));
    ANSWERS(0, take(&d, 0, 8, nothing(9), &taken));
    memcpy(rows, mark, sizeof rows);
    ANSWERS(0, pfair_members(&d, &count, rows, 2));
    CHECK(taken == PFAIR_TAKEN_TORN && count == members_after(5, rows), "what was planned stands");
    ANSWERS(0, pfair_close(&d));
}

int main(void) {
    long at_first = blocks;
    several_windows();
    whole_logs();
    lags();
    members();
    CHECK(blocks == at_first, "%ld blocks not freed", blocks - at_first);
    return told();
}
