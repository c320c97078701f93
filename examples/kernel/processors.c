/* processors.c: how processors are woken, and which stack each interrupt takes. */
#include "machine.h"

/* offsets of the LAPIC's registers */
enum { SPURIOUS_REGISTER = 0xf0, COMMAND_LOW = 0x300, COMMAND_HIGH = 0x310, TIMER = 0x320 };
enum { LINE_0 = 0x350, DIVISOR = 0x3e0 };
enum { MASKED = 0x10000, ENABLED = 0x100, INIT = 0x4500, STARTUP = 0x4600, IS_PENDING = 0x1000 };

volatile uint32_t *lapic(uint32_t offset) {
    return (volatile uint32_t *)(uintptr_t)(LAPIC + offset);
}

unsigned this_processor(void) {
    return *lapic(LAPIC_ID) >> 24;
}

/* CPUID's leaf 1 tells of SSE3, SSSE3, CMPXCHG16B, SSE4.1, SSE4.2 and POPCNT, leaf 0x80000001 of LAHF. */
bool is_new_enough(void) {
    enum { WANTED = 1 << 0 | 1 << 9 | 1 << 13 | 1 << 19 | 1 << 20 | 1 << 23 };
    uint32_t a = 1, b, c = 0, d;
    __asm__ volatile("cpuid" : "+a"(a), "=b"(b), "+c"(c), "=d"(d));
    bool has_all = (c & WANTED) == WANTED;
    a = 0x80000001;
    __asm__ volatile("cpuid" : "+a"(a), "=b"(b), "+c"(c), "=d"(d));
    return has_all && (c & 1) != 0;
}

/* ---- interrupts */
static struct gate {
    uint16_t low, segment;
    uint8_t stack, kind;
    uint16_t middle;
    uint32_t high, zero;
} gates[256];

/* `stack` is that of the processor's task segment, from 1. A gate of this kind turns interrupts off. */
static void make_gate(unsigned number, const void *entry, uint8_t stack) {
    uint64_t at = (uint64_t)entry;
    struct gate gate = {(uint16_t)at, CODE64, stack, 0x8e, (uint16_t)(at >> 16), (uint32_t)(at >> 32), 0};
    gates[number] = gate;
}

void make_gates(void) {
    for (unsigned number = 0; number < FAULTS; number++) make_gate(number, fault_entries[number], 2);
    make_gate(TICK, (const void *)tick_entry, 1);
    make_gate(PLAN, (const void *)plan_entry, 1);
    make_gate(REST, (const void *)rest_entry, 1);
    make_gate(SPURIOUS, (const void *)spurious_entry, 2);
    out8(0x21, 0xff); /* the two old controllers are masked */
    out8(0xa1, 0xff);
}

/* A processor's task segment: of its 104 bytes we use the seven stacks of interrupts, which begin at byte 36. */
static struct __attribute__((packed)) {
    uint8_t unused[36];
    uint64_t stacks[7];
    uint8_t unused_too[12];
} task_segments[PROCESSORS];
uint8_t tick_stacks[PROCESSORS][SMALL_STACK_SIZE] __attribute__((aligned(16)));
static uint8_t fault_stacks[PROCESSORS][SMALL_STACK_SIZE] __attribute__((aligned(16)));
extern uint64_t segments[];

void begin_processor(unsigned number) {
    uint64_t at = (uint64_t)&task_segments[number], limit = sizeof task_segments[number] - 1;
    uint16_t segment = (uint16_t)(TASK_SEGMENTS + 16 * number);
    struct __attribute__((packed)) {
        uint16_t limit;
        const void *at;
    } table = {sizeof gates - 1, gates};
    task_segments[number].stacks[0] = (uint64_t)tick_stacks[number + 1];
    task_segments[number].stacks[1] = (uint64_t)fault_stacks[number + 1];
    segments[segment / 8] = limit | (at & 0xffffff) << 16 | 0x89ull << 40 | (at >> 24 & 0xff) << 56;
    segments[segment / 8 + 1] = at >> 32;
    __asm__ volatile("ltr %0; lidt %1" : : "r"(segment), "m"(table));
    *lapic(SPURIOUS_REGISTER) = ENABLED | SPURIOUS;
    *lapic(LINE_0) = MASKED;
    *lapic(TIMER) = MASKED;
    *lapic(DIVISOR) = 0xb; /* the timer counts at full speed */
}

/* ---- from one processor to another */
static void command(unsigned number, uint32_t what) {
    *lapic(COMMAND_HIGH) = number << 24;
    *lapic(COMMAND_LOW) = what;
    while (*lapic(COMMAND_LOW) & IS_PENDING) relax();
}

void wait_milliseconds(uint64_t count) {
    for (uint64_t from = time_stamp(); time_stamp() - from < count * stamps_per_millisecond;) {}
}

void wake_processor(unsigned number) {
    extern const uint8_t trampoline[], trampoline_end[];
    memcpy((void *)(uintptr_t)TRAMPOLINE, trampoline, (size_t)(trampoline_end - trampoline));
    command(number, INIT);
    wait_milliseconds(10);
    for (int k = 0; k < 2; k++) {
        command(number, STARTUP | TRAMPOLINE >> 12);
        wait_milliseconds(1);
    }
}
