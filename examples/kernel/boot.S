/*
 * boot.S: from what the loader leaves to C. Each processor ends in begin(note, number) in 64-bit mode, with all memory
 * at its own addresses and on a stack of its own. Only the first processor has the loader's note; the others have 0.
 */
#include "layout.h"

/* This note tells the loader (PVH, which QEMU has) where to enter: in 32-bit mode without pages, its note in %ebx. */
    .section .note.pvh, "a", @note
    .balign 4
    .long 4, 8, 18
    .asciz "Xen"
    .quad start32

    .section .text
    .global start32, trampoline, trampoline_end, segments, stacks
    .code32
start32:
    cli
    cld
    mov %ebx, %edi
    jmp enter_long_mode
/* The others wake in 16-bit mode at TRAMPOLINE, where the first one has copied these lines. */
    .code16
trampoline:
    cli
    cld
    xor %ax, %ax
    mov %ax, %ds
    lgdtl TRAMPOLINE + trampoline_table - trampoline
    mov $1, %eax                /* protected mode */
    mov %eax, %cr0
    ljmpl $CODE32, $woken32
trampoline_table:
    .word segments_end - segments - 1
    .long segments
trampoline_end:
    .code32
woken32:
    mov $DATA, %eax
    mov %eax, %ds
    mov %eax, %ss
    xor %edi, %edi
enter_long_mode:
    mov $page_map, %eax
    mov %eax, %cr3
    mov $0x620, %eax            /* PAE; OSFXSR and OSXMMEXCPT: the SSE registers are enabled */
    mov %eax, %cr4
    mov $0xc0000080, %ecx       /* EFER: long mode */
    rdmsr
    or $0x100, %eax
    wrmsr
    mov $0x80010033, %eax       /* PG, WP, NE, ET, MP, PE: pages on, and no trap at SSE instructions (EM, TS are 0) */
    mov %eax, %cr0
    lgdt segment_table
    ljmp $CODE64, $start64
    .code64
start64:
    mov $DATA, %eax
    mov %eax, %ds
    mov %eax, %es
    mov %eax, %ss
    mov $LAPIC + LAPIC_ID, %eax
    mov (%rax), %esi            /* the processor's number */
    shr $24, %esi
    lea 1(%rsi), %eax           /* its stack ends where the next one's begins */
    imul $STACK_SIZE, %eax, %eax
    lea stacks(%rax), %rsp
    xor %ebp, %ebp
    call begin
    ud2
    .section .data
    .balign 16
segments:
    .quad 0
    .quad 0x00af9a000000ffff    /* CODE64 */
    .quad 0x00cf92000000ffff    /* DATA */
    .quad 0x00cf9a000000ffff    /* CODE32 */
    .fill 2 * PROCESSORS, 8, 0  /* TASK_SEGMENTS, which processors.c fills */
segments_end:
segment_table:
    .word segments_end - segments - 1
    .quad segments

/* The first 4 GB, each address as it is, in pages of 2 MB. The last GB has the devices, and isn't cached. */
    .balign 4096
page_map:
    .quad page_pointers + 3
    .fill 511, 8, 0
page_pointers:
    .quad pages + 3, pages + 0x1003, pages + 0x2003, pages + 0x3003
    .fill 508, 8, 0
pages:
    .set at, 0
    .rept 3 * 512
    .quad at + 0x83
    .set at, at + 0x200000
    .endr
    .rept 512
    .quad at + 0x9b
    .set at, at + 0x200000
    .endr

    .section .bss
    .balign 4096
stacks:
    .skip PROCESSORS * STACK_SIZE
