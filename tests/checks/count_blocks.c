/* To be linked into a C program with -Wl,--wrap=malloc,--wrap=realloc,--wrap=free: complains at its end of blocks that
   its own objects, the libraries among them, took and didn't free. */
#include <stdio.h>
#include <stdlib.h>

void *__real_malloc(size_t);
void *__real_realloc(void *, size_t);
void __real_free(void *);

static long blocks;

void *__wrap_malloc(size_t size) {
    void *block = __real_malloc(size);
    if (block) blocks++;
    return block;
}

void *__wrap_realloc(void *old, size_t size) {
    void *block = __real_realloc(old, size);
    if (block && !old) blocks++;
    return block;
}

void __wrap_free(void *block) {
    if (block) blocks--;
    __real_free(block);
}

__attribute__((destructor)) static void end(void) {
    if (blocks) fprintf(stderr, "%ld blocks were not freed\n", blocks);
}
