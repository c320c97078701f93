/*
 * What the tests of the C library share: checks that are counted, allocations that fail if a test asks for it, and
 * entries. Link with -Wl,--wrap=malloc,--wrap=realloc,--wrap=free.
 */
#ifndef CHECKS_H
#define CHECKS_H
#include "pfair.h"
#include <inttypes.h>
#include <malloc.h>
#include <stdio.h>
#include <stdlib.h>
#include <string.h>

static _Atomic long held, differ;
#define CHECK(truth, ...)                              \
    do {                                               \
        if (truth)                                     \
            held++;                                    \
        else {                                         \
            differ++;                                  \
            printf("line %d: %s: ", __LINE__, #truth); \
            printf(__VA_ARGS__);                       \
            printf("\n");                              \
        }                                              \
    } while (0)
#define ANSWERS(wanted, call)                               \
    do {                                                    \
        uint32_t got_ = (call);                             \
        CHECK(got_ == (wanted), "answered %" PRIu32, got_); \
    } while (0)

/* ---- allocations that fail on request */

void *__real_malloc(size_t);
void *__real_realloc(void *, size_t);
void __real_free(void *);
/* how often memory was asked for, when it is refused, and what is in use */
static __thread long calls, refuse_from, refuse_run, blocks, bytes, zero_sizes;
/* the largest block that was asked for */
static __thread size_t largest;
static inline int refused(void) {
    calls++;
    return refuse_from && calls >= refuse_from && calls < refuse_from + refuse_run;
}
void *__wrap_malloc(size_t size) {
    if (!size) zero_sizes++;
    if (size > largest) largest = size;
    if (refused()) return NULL;
    void *at = __real_malloc(size);
    if (at) blocks++, bytes += (long)malloc_usable_size(at);
    return at;
}
void *__wrap_realloc(void *old, size_t size) {
    if (!size) zero_sizes++;
    if (size > largest) largest = size;
    if (refused()) return NULL;
    size_t before = old ? malloc_usable_size(old) : 0;
    void *at = __real_realloc(old, size);
    if (at && !old) blocks++;
    if (at) bytes += (long)malloc_usable_size(at) - (long)before;
    return at;
}
void __wrap_free(void *at) {
    if (at) blocks--, bytes -= (long)malloc_usable_size(at);
    __real_free(at);
}
static inline void refuse(long from, long run) {
    calls = 0;
    refuse_from = from;
    refuse_run = run;
}
static inline void ample(void) {
    refuse_from = 0;
}

/* ---- entries */

static inline struct pfair_entry nothing(uint64_t floor) {
    struct pfair_entry e = {.floor = floor};
    return e;
}
static inline struct pfair_entry arrive(const char *name, uint64_t cost, uint64_t period, uint64_t at) {
    struct pfair_entry e = {.kind = PFAIR_KIND_ARRIVE, .at = at, .cost = cost, .period = period};
    e.name = pfair_name_of(name);
    return e;
}
static inline struct pfair_entry depart(const char *name, uint64_t at) {
    struct pfair_entry e = {.kind = PFAIR_KIND_DEPART, .at = at};
    e.name = pfair_name_of(name);
    return e;
}
static inline struct pfair_entry late(const char *name, uint64_t index, uint64_t by, uint64_t at) {
    struct pfair_entry e = {.kind = PFAIR_KIND_LATE, .at = at, .index = index, .by = by};
    e.name = pfair_name_of(name);
    return e;
}
static inline uint32_t take(struct pfair_dispatcher *d, int p, uint32_t n, struct pfair_entry e, uint64_t *taken) {
    struct pfair_entry kept = e;
    uint32_t answer = pfair_take(d, (uint8_t)p, n, &e, taken);
    CHECK(!memcmp(&kept, &e, sizeof e), "the entry was written");
    return answer;
}

/* ---- windows */

/* The last line of a test, and its status. */
static inline int told(void) {
    printf("%ld hold, %ld differ\n", (long)held, (long)differ);
    return differ ? 1 : 0;
}
#endif
