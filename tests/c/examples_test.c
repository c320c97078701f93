/*
 * examples_test FOLDER: each task file of the folder, read and planned through C, gives the rows that are stored beside
 * it (NAME.replay, NAME.lags), all at once and slot by slot. It counts what holds and prints what doesn't.
 */
#include "checks.h"

static const char *folder;
static const char *names[] = {"early_release", "full_load", "joins_and_leaves", "late_releases",
                              "mode_change",   "places",    "two_processors"};

struct bytes {
    size_t length;
    uint8_t *at;
};

static struct bytes stored(const char *name, const char *kind) {
    char path[4096];
    struct bytes found = {0, malloc(1 << 20)};
    snprintf(path, sizeof path, "%s/%s.%s", folder, name, kind);
    FILE *file = fopen(path, "rb");
    CHECK(file != NULL, "no file %s", path);
    if (file) {
        found.length = fread(found.at, 1, 1 << 20, file);
        fclose(file);
    }
    return found;
}

static void compare(struct bytes wanted, const char *got, size_t length, const char *name, const char *kind) {
    CHECK(length == wanted.length && !memcmp(got, wanted.at, length), "other bytes than those of %s.%s", name, kind);
    free(wanted.at);
}

/* ---- rows as text */

static size_t quanta_text(struct pfair_dispatcher *d, uint64_t from, uint64_t to, char *text) {
    static struct pfair_quantum rows[4096];
    uint64_t count = 0;
    size_t length = 0;
    ANSWERS(0, pfair_quanta(d, from, to, &count, rows, 4096));
    for (uint64_t k = 0; k < count; k++)
        length +=
            (size_t)sprintf(text + length, "%" PRIu64 ",%" PRIu64 ",%.*s,%" PRIu64 "\n", rows[k].slot, rows[k].row,
                            (int)rows[k].name.length, (const char *)rows[k].name.bytes, rows[k].index);
    return length;
}

static size_t lags_text(struct pfair_dispatcher *d, uint64_t from, uint64_t to, char *text) {
    static struct pfair_lag rows[4096];
    uint64_t count = 0;
    size_t length = 0;
    ANSWERS(0, pfair_lags(d, from, to, &count, rows, 4096));
    for (uint64_t k = 0; k < count; k++)
        length += (size_t)sprintf(text + length, "%" PRIu64 ",%.*s,%" PRId64 ",%" PRIu64 "\n", rows[k].time,
                                  (int)rows[k].name.length, (const char *)rows[k].name.bytes, rows[k].numerator,
                                  rows[k].period);
    return length;
}

/* All slots at once, and slot by slot, behind the header of the stored rows. */
static void rows(struct pfair_dispatcher *d, uint64_t slots, const char *name, const char *kind, const char *header,
                 size_t (*text_of)(struct pfair_dispatcher *, uint64_t, uint64_t, char *)) {
    char *text = malloc(1 << 20);
    size_t length = (size_t)sprintf(text, "%s\n", header), head = length;
    length += text_of(d, 0, slots, text + length);
    compare(stored(name, kind), text, length, name, kind);
    length = head;
    for (uint64_t slot = 0; slot < slots; slot++) length += text_of(d, slot, slot + 1, text + length);
    compare(stored(name, kind), text, length, name, kind);
    free(text);
}

static void example(const char *name) {
    struct pfair_dispatcher d = PFAIR_NONE;
    struct pfair_file_fault fault;
    struct pfair_settings s = {0, 0, 0, 0};
    struct pfair_step step;
    struct bytes file = stored(name, "toml");
    ANSWERS(0, pfair_read_file(&d, &fault, file.at, file.length));
    free(file.at);
    ANSWERS(0, pfair_settings(&d, &s));
    ANSWERS(0, pfair_plan_to(&d, s.slots, &step));
    CHECK(step.kind == PFAIR_STEP_PLANNED && step.slot + 1 == s.slots, "planned");
    rows(&d, s.slots, name, "replay", "slot,processor,task,index", quanta_text);
    rows(&d, s.slots, name, "lags", "time,task,numerator,period", lags_text);
    ANSWERS(0, pfair_close(&d));
}

int main(int count, char **words) {
    if (count != 2) return 2;
    folder = words[1];
    long at_first = blocks;
    for (size_t k = 0; k < sizeof names / sizeof *names; k++) example(names[k]);
    CHECK(blocks == at_first, "%ld blocks not freed", blocks - at_first);
    return told();
}
