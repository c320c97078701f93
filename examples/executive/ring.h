/*
 * ring.h: messages on their way from one processor to another. One processor writes and one reads, so that no lock is
 * needed: each changes a counter of its own, and a message is written before the counter says so.
 */
#ifndef RING_H
#define RING_H
#include "pfair.h"
#include <stdatomic.h>

enum { RING = 256 }; /* messages; a power of two, so that the counters may wrap around */

/* The first `count` entries of the log of a processor in a run, in a number: equal entries have equal ones. */
struct digest {
    uint64_t run, hash;
    unsigned of;
    uint32_t count;
};

/* An entry of the sender's log of a run under its number, or a request for those of the receiver's from a number on. With
   it comes the digest of one of the logs, as the sender knows it. */
struct message {
    bool is_request;
    unsigned from;
    uint64_t run;
    uint32_t number;
    struct pfair_entry entry;
    struct digest digest;
};

struct ring {
    struct message messages[RING];
    atomic_uint written, read;
};

/* Answers false if there is no room. */
static inline bool push(struct ring *ring, const struct message *message) {
    unsigned written = atomic_load_explicit(&ring->written, memory_order_relaxed);
    if (written - atomic_load_explicit(&ring->read, memory_order_acquire) == RING) return false;
    ring->messages[written % RING] = *message;
    atomic_store_explicit(&ring->written, written + 1, memory_order_release);
    return true;
}

/* Answers false if there is no message. */
static inline bool pull(struct ring *ring, struct message *message) {
    unsigned read = atomic_load_explicit(&ring->read, memory_order_relaxed);
    if (read == atomic_load_explicit(&ring->written, memory_order_acquire)) return false;
    *message = ring->messages[read % RING];
    atomic_store_explicit(&ring->read, read + 1, memory_order_release);
    return true;
}

#endif
