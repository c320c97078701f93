/* task_file.h: writes a table of announcements as a task file, from which `pfair replay` makes the same schedule. */
#ifndef TASK_FILE_H
#define TASK_FILE_H
#include "announcement.h"
#include <inttypes.h>
#include <stdio.h>

static void write_task_file(const struct announcement *table, unsigned rows, unsigned processors, uint64_t frame,
                            uint64_t slots) {
    static const char *const kinds[] = {"", "arrive", "depart", "late"};
    printf("version = 2\nprocessors = %u\nframe = %" PRIu64 "\nslots = %" PRIu64 "\n", processors, frame, slots);
    for (unsigned k = 0; k < rows; k++) {
        const struct announcement *a = &table[k];
        if (a->at >= slots) continue;
        printf("\n[[entry]]\nprocessor = %u\n", a->processor % processors);
        printf("floor = %" PRIu64 "\nkind = \"%s\"\n", a->at, kinds[a->kind]);
        printf("at = %" PRIu64 "\nname = \"%s\"\n", a->at, a->name);
        if (a->kind == PFAIR_KIND_ARRIVE) printf("cost = %" PRIu64 "\nperiod = %" PRIu64 "\n", a->cost, a->period);
        if (a->kind == PFAIR_KIND_ARRIVE) printf("early = %s\n", a->early ? "true" : "false");
        if (a->kind == PFAIR_KIND_LATE) printf("index = %" PRIu64 "\nby = %" PRIu64 "\n", a->index, a->by);
    }
}

#endif
