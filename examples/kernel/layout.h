/* layout.h: the numbers that C and the assembler share. */
#ifndef LAYOUT_H
#define LAYOUT_H
#define PROCESSORS 8          /* at most */
#define STACK_SIZE 65536      /* of each processor's planner */
#define SMALL_STACK_SIZE 4096 /* of each processor for ticks, for faults, and for its idle thread */
#define TRAMPOLINE 0x8000     /* where processors other than the first begin: a page below 1 MB */
#define HEAP_END 0x6000000    /* memory from the kernel's end up to here (96 MB) is the heap */

/* the local interrupt controller (LAPIC), which each processor sees at the same address */
#define LAPIC 0xfee00000
#define LAPIC_ID 0x20
#define LAPIC_EOI 0xb0
/* segments: offsets in the table in boot.S; a task segment takes 16 bytes, and each processor has one */
#define CODE64 0x08
#define DATA 0x10
#define CODE32 0x18
#define TASK_SEGMENTS 0x20
/* interrupts */
#define FAULTS 32 /* 0 to 31 */
#define TICK 0x40 /* a slot begins */
#define PLAN 0x41 /* half of the slot is over: the planner goes on */
#define REST 0x42 /* the planner gives way, by int */
#define SPURIOUS 0xff
#endif
