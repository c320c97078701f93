/* machine.h: what the files below the executive give it. */
#ifndef MACHINE_H
#define MACHINE_H
#include "layout.h"
#include <stdatomic.h>
#include <stdbool.h>
#include <stddef.h>
#include <stdint.h>

/* ---- boot.S, switch.S, executive.c and ticks.c: a thread that doesn't run is its frame */
struct frame {
    uint8_t sse[512]; /* as FXSAVE has it */
    uint64_t r15, r14, r13, r12, r11, r10, r9, r8, rbp, rdi, rsi, rdx, rcx, rbx, rax;
    uint64_t rip, cs, rflags, rsp, ss; /* as the processor pushes them */
} __attribute__((aligned(16)));
_Noreturn void begin(const uint32_t *note, unsigned number);
void tick(struct frame *frame), plan_tick(struct frame *frame), turn_back(struct frame *frame);
void tick_entry(void), plan_entry(void), rest_entry(void), spurious_entry(void);
extern const uint8_t fault_entries[FAULTS][16];
uint64_t work(uint64_t pattern, uint64_t rounds);

/* ---- processors.c */
extern uint8_t stacks[PROCESSORS][STACK_SIZE], tick_stacks[PROCESSORS][SMALL_STACK_SIZE];
bool is_new_enough(void);                /* whether the processor has x86-64-v2 */
void make_gates(void);                   /* once: which code each interrupt runs */
void begin_processor(unsigned number);   /* on each */
void wake_processor(unsigned number);
void wait_milliseconds(uint64_t count);
unsigned this_processor(void);
volatile uint32_t *lapic(uint32_t offset);

/* ---- timer.c: time is the processor's time stamp counter */
extern uint64_t stamps_per_millisecond, stamps_per_quantum;
extern atomic_uint_fast64_t epoch;       /* at which slot 0 begins; 0 if that isn't known yet */
void measure_time(void);                 /* once */
uint64_t boundary(uint64_t slot);        /* at which the slot begins */
uint64_t slot_by_clock(void);            /* 0 before slot 0, too */
void arm_timer(uint8_t interrupt, uint64_t due);
static inline uint64_t time_stamp(void) {
    return __builtin_ia32_rdtsc();
}

/* ---- console.c: the two serial ports, and the end */
enum { ROWS = 0x3f8, NOTES = 0x2f8 };
void put_out(uint16_t port, const char *format, ...); /* %s: a text, %u: a uint64_t */
_Noreturn void power_off(uint8_t status);
_Noreturn void stop(const char *what, uint64_t number);
_Noreturn void fault(const uint64_t *pushed);

/* ---- memory.c: what the library asks of a C library */
void *malloc(size_t size);
void *realloc(void *at, size_t size);
void free(void *at);
void *memcpy(void *restrict to, const void *restrict from, size_t size);
void *memmove(void *to, const void *from, size_t size);
void *memset(void *to, int byte, size_t size);

/* ---- a few instructions */
static inline void out8(uint16_t port, uint8_t byte) {
    __asm__ volatile("outb %0, %1" : : "a"(byte), "Nd"(port));
}
static inline uint8_t in8(uint16_t port) {
    uint8_t byte;
    __asm__ volatile("inb %1, %0" : "=a"(byte) : "Nd"(port));
    return byte;
}

/* In each loop that waits for another processor. */
static inline void relax(void) {
    __builtin_ia32_pause();
}

/* Turns interrupts off, and returns the flags as they were. */
static inline uint64_t interrupts_off(void) {
    uint64_t flags = __builtin_ia32_readeflags_u64();
    __asm__ volatile("cli" : : : "memory");
    return flags;
}
static inline void interrupts_as(uint64_t flags) {
    __asm__ volatile("" : : : "memory");
    __builtin_ia32_writeeflags_u64(flags);
}

#endif
