/* timer.c: each processor's own timer, which is set anew for each quantum. */
#include "machine.h"

enum { TIMER = 0x320, COUNT = 0x380, COUNT_LEFT = 0x390 };
uint64_t stamps_per_millisecond, stamps_per_quantum;
static uint64_t counts_per_millisecond;
atomic_uint_fast64_t epoch;

/* Lets 10 ms go by on the PC's old timer, whose frequency is known, and looks how far the two other clocks come. */
void measure_time(void) {
    enum { HERTZ = 1193182, TICKS = HERTZ / 100 };
    out8(0x61, (in8(0x61) & 0xfc) | 1);
    out8(0x43, 0xb0);
    out8(0x42, TICKS & 0xff);
    *lapic(COUNT) = 0xffffffff;
    out8(0x42, TICKS >> 8);
    uint64_t from = time_stamp();
    while ((in8(0x61) & 0x20) == 0) {}
    stamps_per_millisecond = (time_stamp() - from) / 10;
    counts_per_millisecond = (0xffffffff - *lapic(COUNT_LEFT)) / 10;
    *lapic(COUNT) = 0;
}

/* Gives the interrupt once, at this time stamp, or some 20 microseconds from now if that is later. */
void arm_timer(uint8_t interrupt, uint64_t due) {
    uint64_t now = time_stamp(), least = stamps_per_millisecond / 50;
    uint64_t left = due > now + least ? due - now : least;
    *lapic(TIMER) = interrupt;
    *lapic(COUNT) = (uint32_t)(left * counts_per_millisecond / stamps_per_millisecond);
}

uint64_t boundary(uint64_t slot) {
    return atomic_load(&epoch) + slot * stamps_per_quantum;
}

uint64_t slot_by_clock(void) {
    uint64_t now = time_stamp(), begun = atomic_load(&epoch);
    return begun == 0 || now < begun ? 0 : (now - begun) / stamps_per_quantum;
}
