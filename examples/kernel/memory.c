/*
 * memory.c: an allocator, and three ways to move bytes.
 *
 * A block has 16 bytes, or a power of two above, with a head of 16 bytes. For each size there is a list of free blocks.
 * One lock guards all lists, with interrupts off: no planner may have to wait for one that a tick interrupted.
 */
#include "machine.h"

enum { SIZES = 24, SMALLEST = 16 };
extern uint8_t kernel_end[];
/* The head of a block. Its 16 bytes keep what follows aligned to 16. */
struct block {
    uint64_t number;    /* of its size */
    struct block *next; /* of a free block: the next one of this size */
};

static struct {
    atomic_flag lock;
    struct block *free[SIZES];
    uintptr_t used; /* bytes from the kernel's end on that were ever given out */
} heap = {.lock = ATOMIC_FLAG_INIT};

static uint64_t lock_heap(void) {
    uint64_t flags = interrupts_off();
    while (atomic_flag_test_and_set_explicit(&heap.lock, memory_order_acquire)) relax();
    return flags;
}
static void unlock_heap(uint64_t flags) {
    atomic_flag_clear_explicit(&heap.lock, memory_order_release);
    interrupts_as(flags);
}

void *malloc(size_t size) {
    uint64_t number = 0;
    if (size > HEAP_END) return NULL;
    while ((uint64_t)SMALLEST << number < size + sizeof(struct block)) number++;
    uint64_t flags = lock_heap();
    struct block *block = heap.free[number];
    if (block != NULL) heap.free[number] = block->next;
    else if (HEAP_END - (uintptr_t)kernel_end - heap.used >= (uint64_t)SMALLEST << number) {
        block = (struct block *)(kernel_end + heap.used);
        heap.used += (uint64_t)SMALLEST << number;
    }
    if (block != NULL) block->number = number;
    unlock_heap(flags);
    return block == NULL ? NULL : block + 1;
}

void free(void *at) {
    if (at == NULL) return;
    struct block *block = (struct block *)at - 1;
    uint64_t flags = lock_heap();
    block->next = heap.free[block->number];
    heap.free[block->number] = block;
    unlock_heap(flags);
}

void *realloc(void *at, size_t size) {
    if (at == NULL) return malloc(size);
    uint64_t had = ((uint64_t)SMALLEST << ((struct block *)at - 1)->number) - sizeof(struct block);
    if (size <= had) return at;
    void *to = malloc(size);
    if (to == NULL) return NULL;
    memcpy(to, at, had);
    free(at);
    return to;
}

/* ---- bytes */

/* Copies eight bytes at a step: under QEMU, where time goes by instructions, each step is one. */
void *memcpy(void *restrict to, const void *restrict from, size_t size) {
    void *at = to;
    size_t words = size / 8, rest = size % 8;
    __asm__ volatile("rep movsq" : "+D"(at), "+S"(from), "+c"(words) : : "memory");
    __asm__ volatile("rep movsb" : "+D"(at), "+S"(from), "+c"(rest) : : "memory");
    return to;
}

void *memmove(void *to, const void *from, size_t size) {
    if ((uintptr_t)to - (uintptr_t)from >= size) return memcpy(to, from, size);
    void *at = (uint8_t *)to + size - 1;
    from = (const uint8_t *)from + size - 1;
    __asm__ volatile("std; rep movsb; cld" : "+D"(at), "+S"(from), "+c"(size) : : "memory");
    return to;
}

void *memset(void *to, int byte, size_t size) {
    void *at = to;
    __asm__ volatile("rep stosb" : "+D"(at), "+c"(size) : "a"(byte) : "memory");
    return to;
}
