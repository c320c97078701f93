/*
 * switch.S: from an interrupt to C and back, maybe into another thread.
 *
 * Each interrupt takes a stack of its own (processors.c says which). The library's code has a red zone: it writes up to
 * 128 bytes below its stack pointer, and an interrupt that pushed there would corrupt a call without a trace.
 */
#include "layout.h"

/* These put what they interrupt on the stack of ticks, as struct frame has it: what the processor pushed, the general
   registers, and by FXSAVE the SSE registers, which the library changes. */
    .global tick_entry, plan_entry, rest_entry, spurious_entry, fault_entries, work
    .macro switching entry, function
\entry:
    .irp register, rax, rbx, rcx, rdx, rsi, rdi, rbp, r8, r9, r10, r11, r12, r13, r14, r15
    push %\register
    .endr
    sub $512, %rsp              /* what was pushed are 160 bytes, so %rsp is a multiple of 16 */
    fxsave64 (%rsp)
    cld
    mov %rsp, %rdi
    call \function              /* it may write another thread's frame there */
    fxrstor64 (%rsp)
    add $512, %rsp
    .irp register, r15, r14, r13, r12, r11, r10, r9, r8, rbp, rdi, rsi, rdx, rcx, rbx, rax
    pop %\register
    .endr
    iretq
    .endm
    switching tick_entry, tick
    switching plan_entry, plan_tick
    switching rest_entry, turn_back

spurious_entry:                 /* on the small stack */
    iretq

    .balign 16                  /* faults, 16 bytes each, on the small stack */
fault_entries:
    .set number, 0
    .rept FAULTS
    push $number
    jmp any_fault
    .balign 16
    .set number, number + 1
    .endr
any_fault:
    mov %rsp, %rdi
    and $-16, %rsp
    call fault
    ud2

/* work(pattern, rounds): fills the SSE registers with the pattern, counts down, and returns 0 if all still have it. */
work:
    .irp number, 0, 1, 2, 3, 4, 5, 6, 7, 8, 9, 10, 11, 12, 13, 14, 15
    movq %rdi, %xmm\number
    .endr
1:  dec %rsi
    jnz 1b
    xor %eax, %eax
    .irp number, 0, 1, 2, 3, 4, 5, 6, 7, 8, 9, 10, 11, 12, 13, 14, 15
    movq %xmm\number, %rcx
    xor %rdi, %rcx
    or %rcx, %rax
    .endr
    ret
