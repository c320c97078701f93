/*
 * Task files, read into dispatchers: what is then held and planned, each fault with its place, and memory refused at
 * each place. It counts what holds and prints what doesn't.
 */
#include "checks.h"

#define HEAD "version = 2\nprocessors = 2\nframe = 6\nslots = 4\n"
#define ENTRY "[[entry]]\nprocessor = 1\nfloor = 1\n"
#define ARRIVAL ENTRY "kind = \"arrive\"\nat = 1\nname = \"a\"\ncost = 1\nperiod = 3\n"
#define LATE ENTRY "kind = \"late\"\nat = 1\nname = \"a\"\n"

static uint32_t read_text(struct pfair_dispatcher *d, struct pfair_file_fault *fault, const char *text) {
    return pfair_read_file(d, fault, (const uint8_t *)text, strlen(text));
}

static void same_fault(struct pfair_file_fault got, uint64_t place, uint64_t field, uint64_t p, uint64_t n,
                       uint64_t cause) {
    CHECK(got.place == place && got.field == field && got.processor == p && got.number == n && got.cause == cause,
          "told %" PRIu64 " %" PRIu64 " %" PRIu64 " %" PRIu64 " %" PRIu64, got.place, got.field, got.processor,
          got.number, got.cause);
}

/* ---- what a file says */

static void read_and_planned(void) {
    struct pfair_dispatcher d = PFAIR_NONE, o = PFAIR_NONE, kept;
    struct pfair_file_fault fault = {7, 7, 7, 7, 7};
    struct pfair_settings s;
    struct pfair_step step;
    struct pfair_quantum rows[9];
    struct pfair_entry a = arrive("a", 1, 3, 1), l = late("a", 2, 1, 1);
    uint64_t next = 77, is, count, taken;
    a.floor = l.floor = 1;
    ANSWERS(0, read_text(&d, &fault, HEAD ARRIVAL LATE "index = 2\nby = 1\n"));
    same_fault(fault, 7, 7, 7, 7, 7);
    ANSWERS(0, pfair_settings(&d, &s));
    CHECK(s.processors == 2 && s.frame == 6 && s.slots == 4 && s.capacity == 3, "settings");
    ANSWERS(0, pfair_next_slot(&d, &next));
    CHECK(next == 0, "nothing is planned");
    ANSWERS(0, pfair_open(&o, 2, 6, 4, 3));
    ANSWERS(0, take(&o, 1, 1, a, &taken));
    ANSWERS(0, take(&o, 1, 2, l, &taken));
    ANSWERS(0, take(&o, 1, 3, nothing(4), &taken));
    ANSWERS(0, pfair_below(&d, &o, &is));
    CHECK(is == 0, "the log without entries is closed too");
    ANSWERS(0, take(&o, 0, 1, nothing(4), &taken));
    ANSWERS(0, pfair_below(&d, &o, &is));
    CHECK(is == 1, "no more than the file's logs");
    ANSWERS(0, pfair_below(&o, &d, &is));
    CHECK(is == 1, "no less than the file's logs");
    ANSWERS(0, pfair_plan_to(&d, 4, &step));
    CHECK(step.kind == PFAIR_STEP_PLANNED && step.slot == 3, "all slots are planned");
    ANSWERS(0, pfair_quanta(&d, 0, 4, &count, rows, 9));
    CHECK(count == 1 && rows[0].slot == 1 && rows[0].index == 1, "the quanta");
    /* an open handle stays as it is, whatever the bytes */
    kept = d;
    ANSWERS(101, read_text(&d, &fault, HEAD));
    ANSWERS(101, read_text(&d, &fault, "="));
    CHECK(!memcmp(&kept, &d, sizeof d), "the handle changed");
    same_fault(fault, 7, 7, 7, 7, 7);
    ANSWERS(0, pfair_close(&d));
    ANSWERS(0, pfair_close(&o));
    ANSWERS(0, read_text(&d, &fault, HEAD));
    ANSWERS(0, pfair_settings(&d, &s));
    CHECK(s.capacity == 1, "logs of one entry each");
    ANSWERS(0, pfair_close(&d));
}

/* ---- faults */

static void refused_files(void) {
    static const struct {
        const char *text;
        uint32_t answer;
        uint64_t place, field, processor, number, cause;
    } files[] = {
        {"", 61, 0, PFAIR_KEY_VERSION, 0, 0, 0},
        {"=", 60, 0, 0, 0, 0, 0},
        {"version = 1\nversion = 1\n", 60, 0, 0, 0, 0, 0},
        {"# \xff\n", 60, 0, 0, 0, 0, 0},
        {"version = 3\n", 65, 0, 0, 0, 0, 0},
        {"version = \"1\"\n", 62, 0, PFAIR_KEY_VERSION, 0, 0, 0},
        {"version = 1\n", 61, 0, PFAIR_KEY_PROCESSORS, 0, 0, 0},
        {"version = 1\nprocessors = 65\n", 63, 0, PFAIR_KEY_PROCESSORS, 0, 0, 0},
        {"version = 1\nprocessors = 2\n", 61, 0, PFAIR_KEY_FRAME, 0, 0, 0},
        {"version = 1\nprocessors = 2\nframe = 6\nslots = 0\n", 63, 0, PFAIR_KEY_SLOTS, 0, 0, 0},
        {HEAD "entry = 7\n", 62, 0, PFAIR_KEY_ENTRY, 0, 0, 0},
        {HEAD ENTRY "[[entry]]\nfloor = 1\n", 61, 2, PFAIR_KEY_PROCESSOR, 0, 0, 0},
        {HEAD "[[entry]]\nprocessor = 2\n", 63, 1, PFAIR_KEY_PROCESSOR, 0, 0, 0},
        {HEAD "[[entry]]\nprocessor = 1\n", 61, 1, PFAIR_KEY_FLOOR, 0, 0, 0},
        {HEAD ENTRY "kind = 7\n", 62, 1, PFAIR_KEY_KIND, 0, 0, 0},
        {HEAD ENTRY "kind = \"depart\"\n", 61, 1, PFAIR_KEY_AT, 0, 0, 0},
        {HEAD ENTRY "kind = \"depart\"\nat = 1\n", 61, 1, PFAIR_KEY_NAME, 0, 0, 0},
        {HEAD ENTRY "kind = \"arrive\"\nat = 1\nname = \"a\"\n", 61, 1, PFAIR_KEY_COST, 0, 0, 0},
        {HEAD ENTRY "kind = \"arrive\"\nat = 1\nname = \"a\"\ncost = 1\n", 61, 1, PFAIR_KEY_PERIOD, 0, 0, 0},
        {HEAD ARRIVAL "early = 1\n", 62, 1, PFAIR_KEY_EARLY, 0, 0, 0},
        {HEAD LATE, 61, 1, PFAIR_KEY_INDEX, 0, 0, 0},
        {HEAD LATE "index = 1\n", 61, 1, PFAIR_KEY_BY, 0, 0, 0},
        {HEAD LATE "index = 0\nby = 1\n", 64, 0, 0, 1, 1, 10},
        {HEAD ARRIVAL LATE "index = 1\nby = 0\n", 64, 0, 0, 1, 2, 9},
        {HEAD ENTRY "kind = \"depart\"\nat = 0\nname = \"a\"\n", 64, 0, 0, 1, 1, 7},
        {HEAD ENTRY "kind = \"depart\"\nat = 1000001\nname = \"a\"\n", 64, 0, 0, 1, 1, 8},
        {HEAD ENTRY "kind = \"depart\"\nat = 1\nname = \"\"\n", 64, 0, 0, 1, 1, 1},
        {HEAD ENTRY "kind = \"depart\"\nat = 1\nname = \"seventeen_letters\"\n", 64, 0, 0, 1, 1, 2},
        {HEAD ENTRY "kind = \"depart\"\nat = 1\nname = \"A\"\n", 64, 0, 0, 1, 1, 3},
        {HEAD ENTRY "kind = \"arrive\"\nat = 1\nname = \"a\"\ncost = 0\nperiod = 3\n", 64, 0, 0, 1, 1, 4},
        {HEAD ENTRY "kind = \"arrive\"\nat = 1\nname = \"a\"\ncost = 4\nperiod = 3\n", 64, 0, 0, 1, 1, 5},
        {HEAD ENTRY "kind = \"arrive\"\nat = 1\nname = \"a\"\ncost = 1\nperiod = 1000000001\n", 64, 0, 0, 1, 1, 6},
    };
    for (size_t k = 0; k < sizeof files / sizeof *files; k++) {
        struct pfair_dispatcher d = PFAIR_NONE, none = PFAIR_NONE;
        struct pfair_file_fault fault = {7, 7, 7, 7, 7};
        uint32_t answer = read_text(&d, &fault, files[k].text);
        CHECK(answer == files[k].answer, "file %d: answered %" PRIu32, (int)k, answer);
        same_fault(fault, files[k].place, files[k].field, files[k].processor, files[k].number, files[k].cause);
        CHECK(d.is_open == none.is_open && d.at == none.at, "the handle changed");
    }
    /* a log has room for 4,095 entries of a file */
    size_t length = strlen(HEAD), step = strlen(ENTRY);
    char *text = malloc(length + 4096 * step + 1);
    memcpy(text, HEAD, length);
    for (size_t k = 0; k < 4096; k++) memcpy(text + length + k * step, ENTRY, step);
    text[length + 4096 * step] = 0;
    struct pfair_dispatcher d = PFAIR_NONE;
    struct pfair_file_fault fault = {7, 7, 7, 7, 7};
    struct pfair_settings s;
    ANSWERS(64, read_text(&d, &fault, text));
    same_fault(fault, 0, 0, 1, 4096, 12);
    text[length + 4095 * step] = 0;
    ANSWERS(0, read_text(&d, &fault, text));
    ANSWERS(0, pfair_settings(&d, &s));
    CHECK(s.capacity == 4096, "a full log, and the entry that closes it");
    ANSWERS(0, pfair_close(&d));
    free(text);
    /* of bytes that no file can have none is looked at */
    size_t longest = 67108864;
    text = malloc(longest + 1);
    memset(text, ' ', longest + 1);
    memcpy(text, HEAD, length);
    text[length - 1] = ' ';
    text[longest] = text[longest - 1] = '\n';
    fault = (struct pfair_file_fault){7, 7, 7, 7, 7};
    ANSWERS(66, pfair_read_file(&d, &fault, (const uint8_t *)text, longest + 1));
    ANSWERS(66, pfair_read_file(&d, &fault, (const uint8_t *)text, SIZE_MAX / 2));
    same_fault(fault, 7, 7, 7, 7, 7);
    ANSWERS(0, pfair_read_file(&d, &fault, (const uint8_t *)text, longest));
    ANSWERS(101, pfair_read_file(&d, &fault, (const uint8_t *)text, longest + 1));
    ANSWERS(0, pfair_close(&d));
    free(text);
}

/* ---- memory refused at each place */

static void want_of_memory(void) {
    static const char *texts[] = {HEAD ARRIVAL LATE "index = 2\nby = 1\n", HEAD LATE "index = 0\nby = 1\n"};
    for (int k = 0; k < 2; k++)
        for (long run = 1; run < 3; run++) {
            long refusals = 0;
            for (long at = 1;; at++) {
                struct pfair_dispatcher d = PFAIR_NONE;
                struct pfair_file_fault fault = {7, 7, 7, 7, 7};
                long before = blocks;
                refuse(at, run);
                uint32_t answer = read_text(&d, &fault, texts[k]);
                ample();
                if (answer == 0) pfair_close(&d);
                CHECK(blocks == before && !d.is_open && !d.at, "%ld blocks not freed", blocks - before);
                if (answer != 90) {
                    CHECK(answer == (k ? 64u : 0u), "answered %" PRIu32, answer);
                    break;
                }
                same_fault(fault, 7, 7, 7, 7, 7);
                refusals++;
            }
            CHECK(refusals > 5, "%ld refusals", refusals);
        }
}

/* A document has keys of at most 80 levels: each level takes stack. */
static void nested_keys(void) {
    for (int levels = 79; levels <= 82; levels++) {
        struct pfair_dispatcher d = PFAIR_NONE;
        struct pfair_file_fault fault;
        char text[512] = "version = 2\na";
        for (int k = 1; k < levels; k++) strcat(text, ".a");
        strcat(text, " = 1\n");
        ANSWERS(levels <= 80 ? PFAIR_FILE_MISSING : PFAIR_FILE_NOT_TOML, read_text(&d, &fault, text));
    }
}

int main(void) {
    long at_first = blocks;
    read_and_planned();
    refused_files();
    nested_keys();
    want_of_memory();
    CHECK(blocks == at_first, "%ld blocks not freed", blocks - at_first);
    return told();
}
