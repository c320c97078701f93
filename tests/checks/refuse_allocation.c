/* A library to be preloaded. It refuses the Nth allocation of a program, or the Nth thread, and writes to a file how
   many allocations there were and how many blocks were never freed. It reads these variables of the environment:
     REFUSE_AT=N      refuse the Nth call of malloc or realloc (0 or not given: none)
     REFUSE_RUN=M     refuse M calls from that one on (not given: 1; 0: all later ones)
     REFUSE_THREAD=N  refuse the Nth thread
     REFUSE_COUNT=F   write the number of calls, and of blocks that aren't freed, to the file F at the end */
#define _GNU_SOURCE
#include <dlfcn.h>
#include <errno.h>
#include <fcntl.h>
#include <limits.h>
#include <pthread.h>
#include <stdatomic.h>
#include <stdio.h>
#include <stdlib.h>
#include <sys/syscall.h>
#include <unistd.h>

static _Atomic long calls;
static _Atomic long blocks;
static _Atomic long threads;
static long first_refused;
static long last_refused;
static void *(*next_malloc)(size_t);
static void *(*next_realloc)(void *, size_t);
static void (*next_free)(void *);

__attribute__((constructor)) static void start(void) {
    const char *at = getenv("REFUSE_AT");
    const char *run = getenv("REFUSE_RUN");
    long length = run ? atol(run) : 1;
    next_malloc = dlsym(RTLD_NEXT, "malloc");
    next_realloc = dlsym(RTLD_NEXT, "realloc");
    next_free = dlsym(RTLD_NEXT, "free");
    first_refused = at ? atol(at) : 0;
    last_refused = length > 0 ? first_refused + length - 1 : LONG_MAX;
    atomic_store(&calls, 0);
    atomic_store(&blocks, 0);
}

static void leave(int status) {
    for (;;) syscall(SYS_exit_group, status);
}

__attribute__((destructor)) static void end(void) {
    const char *path = getenv("REFUSE_COUNT");
    char line[64];
    int length, file;
    if (!path) return;
    length = snprintf(line, sizeof line, "%ld %ld\n", atomic_load(&calls), atomic_load(&blocks));
    file = open(path, O_WRONLY | O_CREAT | O_TRUNC, 0644);
    if (file < 0) return;
    if (write(file, line, (size_t)length) != length) leave(99);
    close(file);
}

/* A program with threads ends by this call, which runs no destructor. */
void _exit(int status) {
    end();
    leave(status);
    __builtin_unreachable();
}

static int is_refused(void) {
    long number = atomic_fetch_add(&calls, 1) + 1;
    return first_refused > 0 && number >= first_refused && number <= last_refused;
}

static void *counted(void *block) {
    if (block) atomic_fetch_add(&blocks, 1);
    return block;
}

void *malloc(size_t size) {
    if (!next_malloc) next_malloc = dlsym(RTLD_NEXT, "malloc");
    return is_refused() ? NULL : counted(next_malloc(size));
}

void *realloc(void *old, size_t size) {
    if (!next_realloc) next_realloc = dlsym(RTLD_NEXT, "realloc");
    if (is_refused()) return NULL;
    return old ? next_realloc(old, size) : counted(next_realloc(old, size));
}

void free(void *block) {
    if (!next_free) next_free = dlsym(RTLD_NEXT, "free");
    if (block) atomic_fetch_sub(&blocks, 1);
    next_free(block);
}

int pthread_create(pthread_t *thread, const pthread_attr_t *attributes, void *(*run)(void *), void *argument) {
    static int (*next)(pthread_t *, const pthread_attr_t *, void *(*)(void *), void *);
    const char *at = getenv("REFUSE_THREAD");
    if (!next) next = dlsym(RTLD_NEXT, "pthread_create");
    if (at && atomic_fetch_add(&threads, 1) + 1 == atol(at)) return EAGAIN;
    return next(thread, attributes, run, argument);
}
