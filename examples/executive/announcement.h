/* announcement.h: a row of an executive's table of announcements, and the entry of a log that announces it. */
#ifndef ANNOUNCEMENT_H
#define ANNOUNCEMENT_H
#include "pfair.h"

enum { MOST_PROCESSORS = 8, MOST_QUANTA = 4000, MOST_TASKS = 16 }; /* of an executive */

struct announcement {
    unsigned processor; /* whose log has it: this number modulo the number of processors */
    uint64_t at, kind;  /* the stamp, and one of enum pfair_kind */
    const char *name;
    uint64_t cost, period, early, index, by;
};

static inline bool is_same_name(const struct pfair_name *one, const struct pfair_name *other) {
    return __builtin_memcmp(one->bytes, other->bytes, sizeof one->bytes) == 0;
}

/* The entry of a row, in a run that begins at that slot. Its floor is one that was said before: no floor rises with an
   announcement. */
static inline struct pfair_entry entry_of(const struct announcement *a, uint64_t floor, uint64_t begin) {
    struct pfair_entry entry = {.floor = floor - begin, .kind = a->kind, .at = a->at - begin, .cost = a->cost};
    entry.name = pfair_name_of(a->name);
    entry.period = a->period;
    entry.early = a->early;
    entry.index = a->index;
    entry.by = a->by;
    return entry;
}

#endif
