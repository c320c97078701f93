/*
 * Runs that go on: what calls answer, each allocation refused in turn, and that memory doesn't grow from run to run; and
 * the states in which they begin.
 *
 *   next_run_test [RUNS SLOTS]        else 12 runs of 3,000 slots each
 */
#include "full_set.h"

/* Plans a run, and forgets each slot. */
static void planned(struct pfair_dispatcher *d, uint64_t slots) {
    for (uint64_t slot = 0; slot < slots; slot++) {
        plan_one(d, slot);
        ANSWERS(0, pfair_forget(d, slot + 1));
    }
}

/* The same of a next run, in which nothing is announced. */
static void planned_on(struct pfair_dispatcher *d, uint64_t slots) {
    uint64_t taken;
    for (int p = 0; p < PROCESSORS; p++) ANSWERS(0, take(d, p, 1, nothing(slots), &taken));
    planned(d, slots);
}

/* The members after the planned slots. */
static uint64_t members_of(struct pfair_dispatcher *d, struct pfair_member *rows) {
    uint64_t count;
    ANSWERS(0, pfair_members(d, &count, rows, TASKS));
    return count;
}

/* A member of a next run, beside the one that the run before left: whole jobs are taken off, and nothing else changes. */
static void carried(const struct pfair_member *before, const struct pfair_member *after) {
    uint64_t jobs = (after->joined - before->joined) / before->period;
    struct pfair_member one = *after;
    one.joined -= jobs * one.period;
    one.theta -= jobs * one.period;
    one.next += jobs * one.cost;
    CHECK(!memcmp(&one, before, sizeof one), "%s isn't carried", before->name.bytes);
    CHECK(after->next <= after->cost + 1, "subtask %" PRIu64, after->next);
}

/* Each allocation of a next run refused: then all is as before, and the call gives the next run all the same. */
static void refused_in_turn(void) {
    static struct pfair_member before[TASKS], after[TASKS];
    struct pfair_dispatcher d = PFAIR_NONE;
    filled(&d, SHORT, SHORT / 2);
    for (uint64_t slot = 0; slot < SHORT; slot++) plan_one(&d, slot);
    uint64_t count = members_of(&d, before), last = digest(&d, SHORT - 1);
    long in_use = bytes, at = 0;
    uint32_t answer = 90;
    while (answer == 90) {
        refuse(++at, 1);
        answer = pfair_next_run(&d, SHORT);
        ample();
        if (answer == 90) CHECK(bytes == in_use && digest(&d, SHORT - 1) == last, "refused at %ld", at);
    }
    CHECK(answer == 0 && at > 10, "%ld allocations", at);
    CHECK(members_of(&d, after) == count, "%" PRIu64 " members", count);
    for (uint64_t k = 0; k < count; k++) carried(&before[k], &after[k]);
    planned_on(&d, SHORT);
    ANSWERS(0, pfair_close(&d));
}

/* A run that begins with a text has the members and the slots of the one that begins with what the run before has left,
   though each allocation is refused in turn. */
static void resumed(struct pfair_dispatcher *next, const uint8_t *text, uint64_t length) {
    static struct pfair_member before[TASKS], after[TASKS];
    struct pfair_dispatcher d = PFAIR_NONE;
    struct pfair_state_fault fault = {7, 7};
    long in_use = bytes, at = 0;
    uint32_t answer = 90;
    for (; answer == 90; ample()) {
        CHECK(bytes == in_use && !d.is_open && fault.line == 7, "something was opened");
        refuse(++at, 1);
        answer = pfair_resume(&d, SHORT, 64, &fault, text, length);
    }
    CHECK(answer == 0 && at > 10 && fault.line == 7, "answer %u, %ld allocations", answer, at);
    ANSWERS(101, pfair_resume(&d, SHORT, 64, &fault, text, length));
    uint64_t count = members_of(next, before);
    CHECK(members_of(&d, after) == count && !memcmp(before, after, count * sizeof *after), "other members");
    planned_on(&d, SHORT);
    planned_on(next, SHORT);
    CHECK(members_of(&d, after) == members_of(next, before), "other members after the run");
    CHECK(!memcmp(before, after, count * sizeof *after), "other quanta");
    ANSWERS(0, pfair_close(&d));
}

static uint64_t chance(uint64_t below) {
    return (uint64_t)rand() % below;
}

/* Where the line begins that a place of a text is in. */
static uint64_t line_of(const uint8_t *text, uint64_t at) {
    while (at > 0 && text[at - 1] != '\n') at--;
    return at;
}

/* Damages a text in one of six ways: a byte is another one, or another digit, is lost, or doubled; a line is lost, or
   doubled. Answers how long it is then. */
static uint64_t damage(uint8_t *text, uint64_t length) {
    uint64_t at = chance(length), way = chance(6), from = line_of(text, at), to = at;
    if (way > 3) while (text[to++] != '\n');
    else from = at, to = at + 1;
    if (way == 0) text[at] = (uint8_t)chance(256);
    if (way == 1 && text[at] >= '0' && text[at] <= '9') text[at] = (uint8_t)('0' + chance(10));
    if (way < 2) return length;
    if (way % 2 == 0) {
        memmove(text + from, text + to, length - to);
        return length - (to - from);
    }
    memmove(text + to, text + from, length - from);
    return length + (to - from);
}

/* A text that is damaged opens nothing, unless it is a state's: then it is the text of the state with which the run began. A
   text that is cut anywhere is never one. */
static void damaged(const uint8_t *text, uint64_t length, int times) {
    static uint8_t other[65536], again[65536];
    struct pfair_dispatcher d = PFAIR_NONE;
    struct pfair_state_fault fault;
    int opened = 0;
    for (uint64_t cut = 0; cut < length; cut++) {
        uint32_t answer = pfair_resume(&d, 1, 1, &fault, text, cut);
        CHECK((answer == 68 || answer == 69) && !d.is_open, "cut to %" PRIu64 " bytes: %u", cut, answer);
    }
    for (int k = 0; k < times; k++) {
        memcpy(other, text, length);
        uint64_t now = damage(other, length), lines = 1, told = 0;
        for (uint64_t at = 0; at < now; at++) lines += other[at] == '\n';
        uint32_t answer = pfair_resume(&d, SHORT, 64, &fault, other, now);
        CHECK((answer == 0) == d.is_open, "answer %u", answer);
        if (answer == 0) {
            opened++;
            ANSWERS(0, pfair_state(&d, &told, again, sizeof again));
            CHECK(told == now && !memcmp(other, again, now), "another state is begun with");
            ANSWERS(0, pfair_close(&d));
        } else if (answer != 33) {
            CHECK((answer == 68) != (answer == 69) && fault.line >= 1 && fault.line <= lines, "answer %u", answer);
        }
    }
    CHECK(opened > times / 100 && opened < times / 2, "%d of %d opened", opened, times);
    printf("%d of %d damaged texts are of states\n", opened, times);
}

/* What is wrong with a text, or with the numbers beside it: nothing is opened. */
static void no_states(void) {
    static const struct {
        const char *text;
        uint32_t answer;
        uint64_t line, cause;
    } wrong[] = {{"", 68, 1, 0},
                 {"state,1,0,1,6\nend,2", 68, 2, 0},
                 {"state,1,00,1,6\nend,2\n", 68, 1, 0},
                 {"state,2,0,1,6\nend,2\n", 69, 1, 1},
                 {"state,1,0,65,6\nend,2\n", 69, 1, 2},
                 {"state,1,9,1,6\nmember,a,1,2,true,9,1,-\nend,3\n", 69, 2, 3},
                 {"state,1,9,1,6\nran,a,1,1\nend,3\n", 69, 2, 4},
                 {"state,1,0,1,6\nend,3\n", 69, 2, 5},
                 {"state,1,9,1,6\nmember,a,1,4,true,0,1,-\nend,3\n", 69, 2, 21},
                 {"state,1,824633720832,1,6\nend,2\n", 33, 7, 7}};
    struct pfair_dispatcher d = PFAIR_NONE;
    for (size_t k = 0; k < sizeof wrong / sizeof wrong[0]; k++) {
        struct pfair_state_fault fault = {7, 7};
        ANSWERS(wrong[k].answer, pfair_resume(&d, 1, 1, &fault, (const uint8_t *)wrong[k].text, strlen(wrong[k].text)));
        CHECK(fault.line == wrong[k].line && fault.cause == wrong[k].cause && !d.is_open, "fault of text %zu", k);
    }
    static uint8_t long_text[67108865];
    struct pfair_state_fault fault = {7, 7};
    ANSWERS(66, pfair_resume(&d, 1, 1, &fault, long_text, sizeof long_text));
    ANSWERS(100, pfair_resume(&d, 0, 1, &fault, long_text, 1));
    ANSWERS(100, pfair_resume(&d, 1000001, 1, &fault, long_text, 1));
    ANSWERS(100, pfair_resume(&d, 1, 0, &fault, long_text, 1));
    ANSWERS(100, pfair_resume(&d, 1, 4097, &fault, long_text, 1));
    CHECK(fault.line == 7 && fault.cause == 7 && !d.is_open, "something was written");
}

/* The text of a state, with too little room, and with each allocation refused in turn: it is as long as it says. */
static void states(void) {
    static uint8_t text[65536];
    struct pfair_dispatcher d = PFAIR_NONE;
    uint64_t length = 77, again = 0;
    ANSWERS(102, pfair_state(&d, &length, text, sizeof text));
    ANSWERS(0, pfair_open(&d, 3, 12, 5, 1));
    ANSWERS(0, pfair_state(&d, &length, text, sizeof text));
    CHECK(length == 21 && !memcmp(text, "state,1,0,3,12\nend,2\n", length), "%" PRIu64 " bytes", length);
    ANSWERS(0, pfair_close(&d));
    filled(&d, SHORT, SHORT / 2);
    for (uint64_t slot = 0; slot < SHORT; slot++) plan_one(&d, slot);
    ANSWERS(0, pfair_next_run(&d, SHORT));
    memset(text, 0, sizeof text);
    ANSWERS(103, pfair_state(&d, &length, text, 20));
    ANSWERS(103, pfair_state(&d, &again, text, length - 1));
    CHECK(length == again && length > 1000 && text[0] == 0, "%" PRIu64 " bytes, then %" PRIu64, length, again);
    long in_use = bytes, at = 0;
    uint32_t answer = 90;
    for (again = 0; answer == 90; ample()) {
        CHECK(again == 0 && text[0] == 0 && bytes == in_use, "something was written");
        refuse(++at, 1);
        answer = pfair_state(&d, &again, text, length);
    }
    CHECK(answer == 0 && at > 1 && again == length && bytes == in_use, "answer %u, %ld allocations", answer, at);
    CHECK(!memcmp(text, "state,1,", 8) && text[length - 1] == '\n' && text[length] == 0, "no text of a state");
    resumed(&d, text, length);
    damaged(text, length, 20000);
    ANSWERS(0, pfair_close(&d));
}

/* What is wrong with a call, in the order of the checks. A spent dispatcher is refused by 31. */
static void refusals(void) {
    struct pfair_dispatcher d = PFAIR_NONE;
    struct pfair_step s;
    uint64_t taken;
    ANSWERS(102, pfair_next_run(&d, 0));
    filled(&d, SHORT, SHORT / 2);
    ANSWERS(100, pfair_next_run(&d, 0));
    ANSWERS(100, pfair_next_run(&d, 1000001));
    ANSWERS(0, pfair_plan_to(&d, SHORT - 1, &s));
    ANSWERS(32, pfair_next_run(&d, 5));
    refuse_all();
    ANSWERS(90, pfair_plan_next(&d, &s));
    ample();
    ANSWERS(31, pfair_next_run(&d, 5));
    ANSWERS(0, pfair_reopen(&d));
    ANSWERS(0, pfair_plan_to(&d, SHORT, &s));
    ANSWERS(0, take(&d, 3, 2, nothing(5), &taken));
    ANSWERS(30, pfair_next_run(&d, 5));
    ANSWERS(0, pfair_close(&d));
}

/* After the first two runs, memory is what it was, run after run, but for how malloc rounds sizes. */
static void many_runs(long runs, uint64_t slots) {
    struct pfair_dispatcher d = PFAIR_NONE;
    long in_use = 0;
    filled(&d, slots, 64);
    planned(&d, slots);
    for (long run = 1; run < runs; run++) {
        ANSWERS(0, pfair_next_run(&d, slots));
        planned_on(&d, slots);
        if (run == 2) in_use = bytes;
        CHECK(run < 2 || bytes <= in_use + 1024, "run %ld: %ld bytes, after two %ld", run, bytes, in_use);
    }
    printf("%ld runs of %" PRIu64 " slots: %ld bytes in use after each\n", runs, slots, in_use);
    ANSWERS(0, pfair_close(&d));
}

int main(int count, char **words) {
    long at_first = blocks;
    refusals();
    refused_in_turn();
    states();
    no_states();
    many_runs(count > 1 ? atol(words[1]) : 12, count > 2 ? strtoull(words[2], NULL, 10) : 3000);
    CHECK(blocks == at_first, "%ld blocks not freed", blocks - at_first);
    return told();
}
