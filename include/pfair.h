/*
 * pfair.h: the C interface of Ramluhay, a proportionate-fair (Pfair) scheduler for M processors.
 *
 * The library computes windows of subtasks, and plans by the PD2 order which subtask runs on which processor in each
 * slot. It computes schedules; it does not execute tasks. docs/SPECIFICATION.md has the rules and docs/GLOSSARY.md the
 * words; docs/ is in the repository, and in /usr/share/doc/pfair if the Debian package is installed.
 *
 * Each processor has a log, whose entries announce that tasks arrive or depart, or that subtasks are released late. An
 * announcement has a stamp, the slot at which it takes effect. An entry has a floor, a slot below which neither it nor
 * a later entry of the log is stamped. A dispatcher takes entries of all logs, in any order, and plans a slot once the
 * floors of all logs are above it (answers are left out here):
 *
 *     struct pfair_dispatcher d = PFAIR_NONE;
 *     pfair_open(&d, 1, 6, 100, 2);               1 processor, a frame of 6 slots, 100 slots, logs of 2 entries
 *     pfair_take(&d, 0, 1, &arrival, &taken);     entry 1 of the log of processor 0
 *     pfair_take(&d, 0, 2, &last, &taken);        entry 2, with floor 100: no more announcements before slot 100
 *     pfair_plan_next(&d, &step);                 plans slot 0
 *     pfair_table(&d, 0, &count, rows, room);     reads its table
 *     pfair_close(&d);
 *
 * MODEL. A task of weight cost/period gets `cost` quanta in each `period` slots. Its i-th quantum serves its subtask i,
 * which has to run in a window of slots, from its release to before its deadline. At the boundary of a slot, before the
 * slot's table, the announcements stamped with the slot are decided: an arriving task is refused, or admitted and then
 * a member. A departing member gets no more quanta, but holds its weight and its name until it is freed, some slots
 * later.
 *
 * FLOORS. A slot is planned once each log has a floor above it. Each floor needs an entry, and a log has at most 4,096:
 * with a floor for each slot it would be full after 4,096 slots. So announce some slots ahead, and raise the floor as
 * seldom as that lead allows: in a run of S slots at most once in S/4,000 slots, or with an announcement.
 *
 * UNITS. Slot t is the time from t to t + 1. A quantum is one slot of one processor. Releases, deadlines, floors and
 * stamps are slots; periods, delays and offsets count slots, and costs quanta. Processors, slots and rows are numbered
 * from 0; the entries of a log and the subtasks of a task from 1.
 *
 * LINKING. After scripts/install, build with the flags of `pkg-config --cflags --libs pfair`. They link the shared
 * library, libpfair.so, which a program finds where it was installed; with -static or -Wl,-Bstatic before them, the
 * static one, libpfair.a.
 *
 * WITHOUT A C LIBRARY. This header includes only <stdbool.h>, <stddef.h> and <stdint.h>, which every compiler brings.
 * libpfair.a needs malloc, realloc, free, memcpy, memmove, memset, and __udivti3 of libgcc. Each function has a section
 * of its own, so -Wl,--gc-sections drops what isn't called. The archive that rt builds, build/libpfair_c.a, needs these
 * in place of the first three; those of the kit's c/liblibc_c.a call malloc, realloc and free:
 *
 *     struct tried { bool ok; void *p; };
 *     struct tried rattle_alloc(size_t size, size_t align);
 *     struct tried rattle_realloc(void *p, size_t kept, size_t size, size_t align);
 *     void rattle_dealloc(void *p);
 *
 * `align` divides 16, and `size` may be 0. If an allocation fails, `ok` is false, `p` is any pointer but NULL, and
 * rattle_realloc leaves the block as it was. Else `p` is a block of that size and alignment. That of rattle_realloc has
 * the first `kept` bytes of the old one, which is freed if it moved.
 *
 * X86-64. The code needs x86-64-v2, with the SSE registers enabled. No call checks for it: an older processor meets an
 * invalid instruction. A program for Linux asks __builtin_cpu_supports("x86-64-v2"). A kernel asks CPUID: leaf 1 has to
 * set bits 0, 9, 13, 19, 20 and 23 of ECX (SSE3, SSSE3, CMPXCHG16B, SSE4.1, SSE4.2, POPCNT), and leaf 0x80000001 bit 0
 * of ECX (LAHF). It enables the registers in CR0 (EM and TS are 0) and CR4 (OSFXSR and OSXMMEXCPT are 1).
 *
 * REGISTERS. Calls follow the System V ABI for x86-64: the stack pointer is a multiple of 16 before a call, and the
 * direction flag is clear. They change xmm0 to xmm15 and no other vector or x87 state, so FXSAVE and FXRSTOR suffice
 * around calls in an interrupt. They use neither %fs nor %gs.
 *
 * STACK. A call uses at most this many bytes of stack, from its return address on, for every input (computed from the
 * archive). What malloc, realloc, free, memcpy, memmove, memset, __udivti3 and a dynamic linker use comes on top.
 *
 *     49,000  pfair_resume
 *     43,500  pfair_state
 *     14,500  pfair_next_run
 *     13,000  pfair_read_file, and 4,000 for each level of nested keys; it reads at most 80 levels
 *      6,500  pfair_open
 *      3,600  pfair_reopen
 *      3,200  pfair_plan_next, pfair_plan_to
 *      2,200  pfair_close
 *      2,000  pfair_take, pfair_take_log, pfair_absorb
 *      1,200  pfair_lags
 *        450  all others
 *
 * INTERRUPTS. The code has a red zone: it writes up to 128 bytes below its stack pointer. So interrupts during a call
 * need a stack of their own (IST), or are off. An interrupt that pushes onto the stack of the call corrupts the call
 * without a trace. Linux leaves room for the red zone of a program when it calls a signal handler.
 *
 * MEMORY. These calls allocate, and answer 90 if an allocation fails; all others allocate nothing:
 *
 *     pfair_open, pfair_read_file, pfair_take, pfair_take_log, pfair_absorb, pfair_faults,
 *     pfair_plan_next, pfair_plan_to, pfair_reserve, pfair_reopen, pfair_next_run, pfair_lags,
 *     pfair_state, pfair_resume
 *
 * pfair_faults, pfair_lags and pfair_state free all that they allocate. A dispatcher owns all other memory until
 * pfair_close; pfair_forget frees some of it earlier. The caller owns what its pointers lead to: the library copies
 * what it needs, and keeps no pointer of the caller's after a call.
 *
 * The calendar of releases takes 1,150 KB of each dispatcher, in blocks of at most 18 KB. The plan that admits the
 * first task allocates it, or pfair_reserve before that.
 *
 * pfair_reserve allocates ahead for plans, and not for takes. An entry needs up to 190 bytes on average. Of 8 takes of
 * new entries one allocates, or fewer if they come out of order: in at most 3 calls of malloc, for blocks of at most
 * 1,392 bytes (measured, in logs of 4,096 entries). So if malloc may be slow, take entries before a tick, not in it.
 *
 * THREADS. The library has no state of its own, neither global nor of a thread.
 *  - Calls on different handles may run at the same time, as far as malloc, realloc and free may.
 *  - At most one call at a time may use a handle, also if it only reads: each call changes the handle while it runs.
 *    pfair_absorb and pfair_below use both of their handles.
 *  - Any thread may use a handle, if its call begins after the one before has ended, in the sense of the memory model:
 *    a lock, a join or a message orders the two threads.
 *  - pfair_version, pfair_window, pfair_windows, pfair_first_miss, pfair_first_late and pfair_name_of use no handle.
 *
 * ANSWERS. Each call but pfair_version and pfair_name_of answers with a number of enum pfair_answer: 0 if it did what
 * it says, else why not.
 *  - The answers of a call are listed in the order of its checks: it gives the first that applies, and 0 if none does.
 *  - Each call on a handle but pfair_open and pfair_read_file answers 102 if the handle has no dispatcher. It checks
 *    this first (pfair_absorb and pfair_below second), and then changes and writes nothing. The lists leave it out.
 *  - A call writes its results if it answers 0, and after no other answer but those whose text says so.
 *  - A call with `rows` and `room` writes over the first of `rows`, and writes to `count` how many there are
 *    (pfair_faults has two counts, pfair_windows none). If there are more than `room`, it answers 103 and writes the
 *    count, but no row. So a `room` of 0 asks for the count.
 *
 * NAMES. The constants of enum pfair_answer are PFAIR_DONE, PFAIR_TORN and so on. Those of each other enum have a word
 * of its name, too: PFAIR_STEP_WAITING is one of enum pfair_step_kind. Fields hold them as uint64_t.
 *
 * TORN AND SPENT. If a dispatcher has met two different entries for one number of a log, that number is torn, for good,
 * and nothing more is planned (30). If an allocation failed in a plan, the dispatcher is spent, and plans nothing until
 * pfair_reopen (31). In both states it still takes entries, and can be read as before; only pfair_members answers 31 if
 * it is spent.
 *
 * COSTS. M is the number of processors, and n that of members. A look-up is that of a number in a log: O(log e) for the
 * e entries that the dispatcher has of that log.
 *
 * WHAT THE CALLER OWES, since no call can check it:
 *  - Each pointer points to a live, aligned object of its type that no other argument points into. `rows` points to
 *    `room` such objects, and `entries`, `picks` and `bytes` to `length`. `rows` may be NULL if `room` is 0, and
 *    `entries` and `picks` if `length` is 0.
 *  - A handle begins as PFAIR_NONE. Only the calls below change it, and no copy of it is used.
 *  - malloc, realloc and free belong to one allocator. It aligns a block to the greatest power of two that divides its
 *    size, up to 16.
 *  - A call in an interrupt or in a signal handler must not interrupt a call with the same handle; and if it allocates
 *    or frees, nor malloc, realloc or free. The handler of a timer's tick may plan if it keeps to this;
 *    it needs no call at all if a thread plans ahead of it (docs/KERNEL.md).
 *  - No call comes from the child of a fork of a process with threads.
 */
#ifndef PFAIR_H
#define PFAIR_H
#include <stdbool.h>
#include <stddef.h>
#include <stdint.h>

/* The version of this header, as text and as a number. */
#define PFAIR_VERSION "0.6.0"
#define PFAIR_VERSION_NUMBER 600

#ifdef __cplusplus
extern "C" {
#endif

/* What calls answer. Numbers below 100, except 32, are also those of the programs' faults. */
enum pfair_answer {
    PFAIR_DONE = 0,
    PFAIR_NAME_EMPTY = 1,         /* a name of no bytes */
    PFAIR_NAME_TOO_LONG = 2,      /* a name of more than 16 bytes */
    PFAIR_NAME_BAD_BYTE = 3,      /* a name is a letter a-z, then letters a-z, digits and underscores */
    PFAIR_ZERO_COST = 4,          /* a weight of cost 0 */
    PFAIR_COST_OVER_PERIOD = 5,   /* a weight of more than a whole processor */
    PFAIR_PERIOD_TOO_LONG = 6,    /* a period of more than 1,000,000,000 slots */
    PFAIR_STAMP_BEFORE_FLOOR = 7, /* an announcement stamped before its entry's floor */
    PFAIR_SLOT_TOO_FAR = 8,       /* a floor or a stamp past slot 1,000,000 */
    PFAIR_BAD_DELAY = 9,          /* a late release by 0 slots, or by more than 1,048,576 */
    PFAIR_BAD_INDEX = 10,         /* a late release of subtask 0, or of one past 1,000,000 */
    PFAIR_NO_SUCH_PROCESSOR = 13, /* the dispatcher has no such processor */
    PFAIR_NO_SUCH_NUMBER = 14,    /* an entry's number is 0 or past the capacity */
    PFAIR_OTHER_SHAPE = 15,       /* two dispatchers with different numbers of processors, or different capacities */
    PFAIR_TORN = 30,              /* two different entries were taken for one number */
    PFAIR_SPENT = 31,             /* the dispatcher is spent: an allocation failed in a plan, and pfair_reopen helps */
    PFAIR_UNFINISHED = 32,        /* not all slots of the run are planned */
    PFAIR_PAST_LAST_SLOT = 33,    /* the next run would end after slot 824,633,720,832, counted over all runs */
    PFAIR_CANNOT_CARRY = 34,      /* a member can't be taken into a next run */
    PFAIR_PICKS_NOT_RISING = 40,  /* a slot of a list isn't after the one before it */
    PFAIR_PICK_PAST_HORIZON = 41, /* a slot of a list isn't before the horizon */
    PFAIR_FILE_NOT_TOML = 60,     /* a task file is no TOML document */
    PFAIR_FILE_MISSING = 61,      /* a key is missing */
    PFAIR_FILE_WRONG_KIND = 62,   /* the value of a key is of the wrong type */
    PFAIR_FILE_RANGE = 63,        /* the value of a key is out of its range */
    PFAIR_FILE_ENTRY = 64,        /* each key of a table is valid, but together they make no entry */
    PFAIR_FILE_VERSION = 65,      /* the file's version is neither 1 nor 2 */
    PFAIR_FILE_TOO_LONG = 66,     /* a task file of more than 67,108,864 bytes */
    PFAIR_NO_STATE_ROW = 68,      /* a line is no row of a state, or not in its place */
    PFAIR_STATE_REFUSED = 69,     /* a row of a state says what no state has */
    PFAIR_MEMORY = 90,            /* an allocation failed */
    PFAIR_OUT_OF_RANGE = 100,     /* a number is out of the range that its call states, or two handles are one */
    PFAIR_OPEN_ALREADY = 101,     /* the handle already has a dispatcher */
    PFAIR_NOT_OPEN = 102,         /* a handle has no dispatcher */
    PFAIR_NO_ROOM = 103,          /* there is room for fewer rows than there are */
    PFAIR_NOT_PLANNED = 104       /* the slot isn't planned, or is forgotten */
};

/*
 * Returns the library's version: 10,000 times its first part, plus 100 times its second, plus its third. A shared
 * library may have another version than the header, which is PFAIR_VERSION_NUMBER.
 */
uint32_t pfair_version(void);

/* ---- windows */

struct pfair_window {
    uint64_t release;        /* the slot in which the window opens */
    uint64_t deadline;       /* the slot before which it closes */
    uint64_t b_bit;          /* 1 if it reaches into the window of the next subtask, else 0 */
    uint64_t group_deadline; /* if the b-bit is 1, where the cascade of tight windows ends; 0 for a weight below 1/2 */
};

/*
 * Writes the window of subtask `index` (1 to 1,000,001) of a task of weight cost/period, shifted by the offset `theta`
 * (0 to 2^40 slots): the slot in which the task joined, plus its late releases up to that subtask.
 *   4    the cost is 0
 *   5    the cost is greater than the period
 *   6    the period is over 1,000,000,000 slots
 *   100  the index or the offset is out of its range
 * O(1).
 */
uint32_t pfair_window(uint64_t cost, uint64_t period, uint64_t index, uint64_t theta, struct pfair_window *window);

/*
 * Writes the windows of `count` subtasks, from `first` on, one after another, as pfair_window.
 *   4 to 6  as pfair_window
 *   100     `first` is 0, first + count is over 1,000,002, or the offset is out of its range
 *   103     `room` is less than `count`
 * O(count).
 */
uint32_t pfair_windows(uint64_t cost, uint64_t period, uint64_t first, uint64_t count, uint64_t theta,
    struct pfair_window *rows, size_t room);

/* ---- whether the slots in which a task ran are right */

/* How a subtask is out of its window. */
enum pfair_miss_kind {
    PFAIR_MISS_NONE = 0,    /* none is */
    PFAIR_MISS_EARLY = 1,   /* it ran before its release */
    PFAIR_MISS_TARDY = 2,   /* it ran at its deadline or later */
    PFAIR_MISS_UNSERVED = 3 /* its deadline is at most the horizon, and it did not run */
};

/* A subtask that is out of its window, or none. */
struct pfair_miss {
    uint64_t kind;  /* one of enum pfair_miss_kind */
    uint64_t index; /* the subtask; 0 if there is none */
    uint64_t slot;  /* the slot in which it ran; 0 if it did not, or if there is none */
};

/*
 * Writes to `miss` the first subtask of a task of weight cost/period that is out of its window, or that there is none.
 * `picks` are the slots in which the task ran, whatever planned them, counted from the slot in which it joined: the
 * first of them is that of subtask 1, and so on. They are looked at up to the `horizon`, the number of slots that have
 * passed (0 to 1,000,000). There is no such subtask exactly if the lag of the task, from the joining slot to the
 * horizon, is above -1 and below 1.
 *   4 to 6  as pfair_window
 *   100     the horizon is out of its range
 *   40      a slot isn't after the one before it
 *   41      a slot isn't before the horizon
 * After 40 and 41, whichever fault is first in the list, `place` is that slot's place in it, from 0. O(length).
 */
uint32_t pfair_first_miss(uint64_t cost, uint64_t period, uint64_t horizon, struct pfair_miss *miss, uint64_t *place,
    const uint64_t *picks, size_t length);

/*
 * Writes the first subtask that is late, PFAIR_MISS_TARDY or PFAIR_MISS_UNSERVED: a task may run ahead of its windows
 * here, as with early release. There is none exactly if the lag stays below 1. All else is as with pfair_first_miss.
 */
uint32_t pfair_first_late(uint64_t cost, uint64_t period, uint64_t horizon, struct pfair_miss *miss, uint64_t *place,
    const uint64_t *picks, size_t length);

/* ---- entries of logs */

/* A task's name: the first `length` bytes, 1 to 16. In names that the library writes, zeros follow. */
struct pfair_name {
    uint8_t bytes[16];
    uint64_t length;
};

/* What an entry announces: nothing; that a task arrives, or departs; or that subtasks are released late. */
enum pfair_kind { PFAIR_KIND_NOTHING = 0, PFAIR_KIND_ARRIVE = 1, PFAIR_KIND_DEPART = 2, PFAIR_KIND_LATE = 3 };

/* An entry of a log. If an entry is taken, fields that its kind doesn't need are ignored. */
struct pfair_entry {
    uint64_t floor;         /* neither this entry nor a later one of the log is stamped below it: 0 to 1,000,000 */
    uint64_t kind;          /* one of enum pfair_kind */
    uint64_t at;            /* the stamp: the slot at whose boundary it is decided, from the floor to 1,000,000 */
    struct pfair_name name; /* the task that is announced */
    uint64_t cost, period;  /* of an arrival, the weight: `cost` quanta in each `period` slots */
    uint64_t early;         /* of an arrival: 1 if a subtask may run before its release, as soon as the one before it
                               in the same job has run, else 0 */
    uint64_t index, by;     /* of a late release: the first late subtask (1 to 1,000,000), and by how many slots it and
                               those after it are late (1 to 1,048,576) */
};

/* Returns the name that a text spells. If the text is over 16 bytes, so is the name, and pfair_take answers 2. */
static inline struct pfair_name pfair_name_of(const char *text) {
    struct pfair_name name = {{0}, 0};
    for (; text[name.length] != 0; name.length++)
        if (name.length < sizeof name.bytes) name.bytes[name.length] = (uint8_t)text[name.length];
    return name;
}

/* ---- dispatchers */

/* A handle: where a dispatcher is, or PFAIR_NONE. Only the library uses its fields. */
struct pfair_dispatcher {
    bool is_open;
    void *at;
};
#define PFAIR_NONE {false, NULL}

/*
 * Opens a dispatcher that has no entries and has planned nothing: for 1 to 64 processors, a frame of 1 to 1,000,000,000
 * slots, a run of 1 to 1,000,000 slots, and logs of at most `capacity` entries (1 to 4,096). Weights are counted in
 * quanta of a frame: if a period doesn't divide the frame, its arrival is refused when it is decided (outcome 21).
 *   101  the handle already has a dispatcher
 *   100  a number is out of its range
 *   90   an allocation failed
 * The handle is as before unless the answer is 0. Time and memory are O(M), whatever the capacity.
 */
uint32_t pfair_open(struct pfair_dispatcher *d, uint8_t processors, uint64_t frame, uint64_t slots, uint32_t capacity);

/* The keys of a task file. */
enum pfair_key_of_file {
    PFAIR_KEY_VERSION = 1,
    PFAIR_KEY_PROCESSORS = 2,
    PFAIR_KEY_FRAME = 3,
    PFAIR_KEY_SLOTS = 4,
    PFAIR_KEY_ENTRY = 5,
    PFAIR_KEY_PROCESSOR = 6,
    PFAIR_KEY_FLOOR = 7,
    PFAIR_KEY_KIND = 8,
    PFAIR_KEY_AT = 9,
    PFAIR_KEY_NAME = 10,
    PFAIR_KEY_COST = 11,
    PFAIR_KEY_PERIOD = 12,
    PFAIR_KEY_EARLY = 13,
    PFAIR_KEY_INDEX = 14,
    PFAIR_KEY_BY = 15
};

/* Where a task file is at fault. Fields that the answer doesn't need are 0: all of them after 60 and 65. */
struct pfair_file_fault {
    uint64_t place;     /* after 61 to 63: the number of the entry's table, from 1, or 0 for the file's own keys */
    uint64_t field;     /* after 61 to 63: the key, one of enum pfair_key_of_file */
    uint64_t processor; /* after 64: the processor of the entry */
    uint64_t number;    /* after 64: its number in that log */
    uint64_t cause;     /* after 64: 12 if the log is full (4,095 entries), else 1 to 10 for what is wrong with it */
};

/*
 * Opens a dispatcher for a task file, as the command `pfair replay` reads it. It has the file's processors, frame and
 * slots, has taken all its entries, and has planned nothing. Each log that is empty, or whose last floor is below the
 * number of slots, has one more entry, whose floor is that number. The capacity is the length of the longest log.
 *   101       the handle already has a dispatcher
 *   66        `length` is over 67,108,864
 *   60 to 65  the file's first fault, which is written to `fault`: 60 comes first, then the file's own keys, and then
 *             the entries' tables, each in order
 *   90        an allocation failed; this may come instead of 60 to 65
 * The handle is as before unless the answer is 0. Time is O(length + e log e) and memory O(length + e) for e entries;
 * the dispatcher keeps O(e).
 */
uint32_t pfair_read_file(struct pfair_dispatcher *d, struct pfair_file_fault *fault, const uint8_t *bytes,
    size_t length);

/*
 * Frees the dispatcher, with all its memory. The handle is then PFAIR_NONE, and may be opened again. O(e + n + s + q)
 * for e entries, and s planned slots with q quanta and decisions.
 */
uint32_t pfair_close(struct pfair_dispatcher *d);

/* The arguments of pfair_open, or what pfair_read_file took for them. */
struct pfair_settings {
    uint64_t processors, frame, slots, capacity;
};

/* Writes what the dispatcher was opened with. O(1). */
uint32_t pfair_settings(struct pfair_dispatcher *d, struct pfair_settings *settings);

/* What an entry met under its number. */
enum pfair_taken {
    PFAIR_TAKEN_NEW = 0,   /* nothing; the number now has the entry */
    PFAIR_TAKEN_KNOWN = 1, /* an equal entry */
    PFAIR_TAKEN_TORN = 2   /* a different entry, or it was torn already; it is torn now */
};

/*
 * Takes entry `number` (1 to the capacity) of the log of `processor`, and writes to `taken` what it met there, one of
 * enum pfair_taken. Entries may come in any order, and repeatedly. Nothing is planned.
 *   100      the kind is over 3, or `early` of an arrival is over 1
 *   1 to 3   the name is wrong
 *   4 to 6   the weight is wrong
 *   8, 7     the floor or the stamp is past 1,000,000; the stamp is before the floor
 *   10, 9    the index of a late release is out of its range; its delay is
 *   13, 14   there is no such processor; no such number
 *   90       an allocation failed; only if the dispatcher had nothing under this number
 * Nothing has changed unless the answer is 0. A few look-ups, and one more for each entry by which the log's sound
 * beginning (pfair_mark) grows. Only a new entry needs memory: see MEMORY.
 */
uint32_t pfair_take(struct pfair_dispatcher *d, uint8_t processor, uint32_t number, const struct pfair_entry *entry,
    uint64_t *taken);

/* How many entries were taken: `fresh` of them as PFAIR_TAKEN_NEW, `known` as PFAIR_TAKEN_KNOWN, and `torn` as
   PFAIR_TAKEN_TORN. */
struct pfair_taken_log {
    uint64_t taken, fresh, known, torn;
};

/*
 * Takes `length` entries of the log of `processor` under the numbers from `first` on, one after another, and stops at
 * the first that is refused. The counts are written after every answer but 102.
 *   13, 14  there is no such processor; no number `first` (1 to the capacity); also if `length` is 0
 *   100, 1 to 10, 14, 90  as pfair_take, of the first entry that is refused
 * Whatever the answer, the first `taken` entries are taken, and no others. Time and memory are those of pfair_take for
 * each.
 */
uint32_t pfair_take_log(struct pfair_dispatcher *d, uint8_t processor, uint32_t first, struct pfair_taken_log *counted,
    const struct pfair_entry *entries, size_t length);

/*
 * Takes all entries of another dispatcher, which stays as it is. A number is torn then if it is torn there, or if both
 * have different entries under it.
 *   100  the two handles are one
 *   15   the other has another number of processors, or another capacity
 *   90   an allocation failed: some of the entries are taken, and absorbing the other again gives what one call would
 *        have given
 * Nothing has changed after 100 and 15. Two look-ups for each entry of the other; and in each log of which it has any,
 * one for each entry of the sound beginning, and one for each number up to the first torn one, or to the capacity. Only
 * new entries need memory, as in pfair_take.
 *
 * The exported functions pfair_absorb and pfair_below must not be given one handle twice. The macros see to that in C
 * and C++; other languages have to.
 */
uint32_t pfair_absorb(struct pfair_dispatcher *d, struct pfair_dispatcher *other);
static inline uint32_t pfair_absorb_another(struct pfair_dispatcher *d, struct pfair_dispatcher *other) {
    return d == other ? 100 : pfair_absorb(d, other);
}
#define pfair_absorb pfair_absorb_another

/* ---- contents: to send logs on, to ask for what was lost, to write a dispatcher down */

/* What a dispatcher has under a number of a log. */
enum pfair_held_kind {
    PFAIR_HELD_NOTHING = 0, /* nothing */
    PFAIR_HELD_ENTRY = 1,   /* one entry */
    PFAIR_HELD_TORN = 2     /* it is torn: two different entries were taken */
};

/*
 * Writes to `kind` what the dispatcher has under `number` (1 to the capacity) of the log of `processor`, one of enum
 * pfair_held_kind. If it is an entry, this is written too, with zeros in the fields that its kind doesn't need.
 *   13, 14  there is no such processor; no such number
 * One look-up.
 */
uint32_t pfair_held(struct pfair_dispatcher *d, uint8_t processor, uint32_t number, uint64_t *kind,
    struct pfair_entry *entry);

/*
 * Writes how far the log of `processor` is known: to `count` the length of its sound beginning, and to `slot` its mark.
 * The sound beginning is the longest run of entries 1, 2, 3 and so on, none missing or torn, whose floors never fall;
 * the mark is its last floor, or 0.
 *   13   there is no such processor
 * O(1).
 */
uint32_t pfair_mark(struct pfair_dispatcher *d, uint8_t processor, uint64_t *slot, uint64_t *count);

/*
 * Writes the least number of the log of `processor` under which the dispatcher has nothing, or 0 if there is none. A
 * torn number isn't missing.
 *   13   there is no such processor
 * A look-up for each number up to that one.
 */
uint32_t pfair_missing(struct pfair_dispatcher *d, uint8_t processor, uint64_t *number);

/* A number of the log of a processor. */
struct pfair_key {
    uint64_t processor, number;
};

/*
 * Writes what is wrong with the logs: first the torn keys, then those of fallen entries, each in the order of processor
 * and number; and to `torn` and `fallen` how many there are of each. An entry is fallen if it comes right after a sound
 * beginning and its floor is lower than the last one there; the rest of its log is ignored.
 *   90   an allocation failed; only if there is such a key
 *   103  there are more than `room` keys; `torn` and `fallen` are written
 * A look-up for each number of each log, up to the capacity. It allocates a list of these keys, and frees it.
 */
uint32_t pfair_faults(struct pfair_dispatcher *d, uint64_t *torn, uint64_t *fallen, struct pfair_key *rows,
    size_t room);

/*
 * Writes to `is_below` 1 if another dispatcher has all that this one has, each number with the same entry or torn;
 * else 0.
 *   100  the two handles are one
 * A look-up in the other for each entry here, up to the first that the other doesn't have.
 */
uint32_t pfair_below(struct pfair_dispatcher *d, struct pfair_dispatcher *other, uint64_t *is_below);
static inline uint32_t pfair_below_another(struct pfair_dispatcher *d, struct pfair_dispatcher *other,
    uint64_t *is_below) {
    return d == other ? 100 : pfair_below(d, other, is_below);
}
#define pfair_below pfair_below_another

/* ---- plans */

/* How a plan ended. */
enum pfair_step_kind {
    PFAIR_STEP_PLANNED = 0,    /* `slot` is planned */
    PFAIR_STEP_WAITING = 1,    /* the next slot isn't settled: it isn't below the frontier, which is `slot` */
    PFAIR_STEP_ALL_PLANNED = 2 /* all slots of the run are planned */
};

/* What a plan did. After 0 all four fields are written, after 30 the last two alone, and after other answers none. */
struct pfair_step {
    uint64_t kind;              /* one of enum pfair_step_kind */
    uint64_t slot;              /* as the kind says; 0 if all slots are planned */
    uint64_t processor, number; /* after 30: the least key that is torn; after 0: both 0 */
};

/*
 * Plans the next slot, if it is below the frontier, and writes what was done. A planned slot never changes.
 *   30   a number is torn; nothing has changed
 *   31   the dispatcher is spent; nothing has changed
 *   90   an allocation failed: the slot isn't planned, the slots before it stay, and the dispatcher is spent
 * O((M + r) log n + a + l) for r releases that come at the slot (also of tasks that left), a announcements at it, and l
 * late releases accepted of the tasks that these name; O(n) more if a task is freed; and a look-up for each entry taken
 * since the last plan. Entries taken before that cost nothing.
 *
 * It allocates a table and places for each slot in which a task runs, and room for what is announced. Two things double
 * now and then: the list of slots that aren't forgotten, which moves 72 bytes for each, and the room for tasks when
 * more are members than ever before. pfair_reserve allocates ahead.
 */
uint32_t pfair_plan_next(struct pfair_dispatcher *d, struct pfair_step *step);

/*
 * Plans until `until` slots are planned, the next one isn't settled, or all slots of the run are planned. The step is
 * PFAIR_STEP_PLANNED with slot `until` - 1, planned now or before, or says why the plans ended earlier.
 *   100  `until` is 0
 *   30, 31, 90  as pfair_plan_next, if fewer than `until` slots are planned; those planned before that stay
 * Time and memory are those of the plans.
 */
uint32_t pfair_plan_to(struct pfair_dispatcher *d, uint64_t until, struct pfair_step *step);

/*
 * Allocates ahead: for the next `slots` slots, or all that are left of the run if these are fewer; and for `tasks`
 * members at once, or as many as the logs have room for entries if these are fewer. If `slots` is 0 or no slot is left,
 * it allocates nothing, for tasks neither.
 *   90   an allocation failed; what was allocated is used by later plans, and all else is as before
 *
 * The plan of such a slot then allocates nothing if nothing is announced at it and no entry was taken since the slot
 * before; else only for what was announced, in blocks whose size doesn't depend on the tasks. This holds while at most
 * `tasks` tasks are members, and at most as many releases are left behind: a departure or a late release may leave one,
 * until its time comes. pfair_reopen drops what was allocated for tasks.
 *
 * Time and memory are O(M slots + tasks): 25 M bytes and some 120 more for a slot, 1,300 to 2,000 bytes for a task, and
 * once 1,150 KB for the calendar of releases, which the first tasks need anyway. Room that is there isn't made again.
 */
uint32_t pfair_reserve(struct pfair_dispatcher *d, uint64_t slots, uint64_t tasks);

/*
 * Forgets the tables, places and decisions of all slots below `slots`, or of all that are planned if these are fewer.
 * Calls answer 104 for these slots from now on. Plans, members and entries are as if they were still there.
 *
 * pfair_lags then answers 104 for all slots of the run, since it counts from slot 0 on; pfair_members still has the
 * lags after the last planned slot.
 *
 * The call frees the memory of these slots or keeps it for slots to come, but for that of the last planned slot. The
 * list of slots keeps 72 bytes for each of the most that it had at once. So the memory of a run doesn't grow if this is
 * called again and again. O(slots freed).
 */
uint32_t pfair_forget(struct pfair_dispatcher *d, uint64_t slots);

/*
 * Rebuilds what plans need from the entries, so that a spent dispatcher plans on as if no allocation had failed.
 * Planned slots stay as they are; forgotten ones are planned once more, and stay forgotten.
 *   30   a number is torn; nothing has changed
 *   90   an allocation failed: the dispatcher is spent, and else as before
 * The cost is that of the plans of all slots so far. It allocates what plans need for announcements and tasks.
 */
uint32_t pfair_reopen(struct pfair_dispatcher *d);

/*
 * Writes the frontier, the least mark of all processors: every announcement below this slot is known, and the slots
 * below it are settled: they can be planned. It can fall only when an entry of a sound beginning becomes torn. O(1).
 */
uint32_t pfair_frontier(struct pfair_dispatcher *d, uint64_t *slot);

/* Writes the slot that is planned next, which is the number of planned slots, forgotten ones included. O(1). */
uint32_t pfair_next_slot(struct pfair_dispatcher *d, uint64_t *slot);

/*
 * Begins the next run, of 1 to 1,000,000 slots, once all slots of this one are planned. Its dispatcher takes the place
 * of this one, which is freed: it has the same processors, frame and capacity, no entries, and no planned slots. The
 * members stay, and a task that runs on stays on its processor. Each dispatcher can do so by itself: once all slots are
 * planned, those whose runs began alike, with entries that agree, know the same members.
 *
 * Slots, stamps and floors count from the next run's own slot 0, and entries from 1; `joined`, `theta` and `freed_at`
 * count from slot 0 of the first run. What is stamped after the last slot of this run isn't taken over: whoever
 * announced it announces it again, in the next run's logs. Each member's jobs before that of its last quantum are
 * dropped from its count: `joined` is as many periods later, and all its indexes are as many costs lower. Its windows
 * and lags stay. In a next run an index is at most 2,000,001. Of one over 1,000,001, ask pfair_window for the index a
 * whole number of costs lower, with the offset as many periods later.
 *   100  the number of slots is out of its range
 *   30   a number is torn
 *   31   the dispatcher is spent
 *   32   not all slots are planned
 *   33   the next run would end after slot 824,633,720,832, counted over all runs
 *   34   a member has a cost over 1,000,000, or so many late releases that its offset would pass that slot
 *   90   an allocation failed
 * Nothing has changed unless the answer is 0. O(M + n log n + l log l) for l late releases that were accepted and are
 * still to come, and what pfair_close costs.
 */
uint32_t pfair_next_run(struct pfair_dispatcher *d, uint64_t slots);

/* ---- what was planned: `count` is the number of rows */

/* A quantum: which subtask of which task runs. */
struct pfair_pick {
    struct pfair_name name;
    uint64_t index; /* of the subtask */
};

/*
 * Two calls read one planned slot, with less stack and time than pfair_quanta. A table has at most M rows, and a task
 * that runs in two consecutive slots stays on its processor.
 *   pfair_table   writes the table, in the PD2 order
 *   pfair_places  writes for each row of the table the processor that runs it
 * Each answers
 *   104  the slot isn't planned, or is forgotten
 *   103  there are more than `room` rows; `count` is written
 * O(rows).
 */
uint32_t pfair_table(struct pfair_dispatcher *d, uint64_t slot, uint64_t *count, struct pfair_pick *rows, size_t room);
uint32_t pfair_places(struct pfair_dispatcher *d, uint64_t slot, uint64_t *count, uint8_t *rows, size_t room);

/* A quantum of one of several slots. */
struct pfair_quantum {
    uint64_t slot, row, place; /* the row of the slot's table, and the processor that runs it */
    struct pfair_name name;
    uint64_t index; /* of the subtask */
};

/*
 * Writes the quanta of the slots `from` to `to` - 1, slot by slot, each slot's in the order of its table. There are
 * none if `from` isn't below `to`.
 *   104  fewer than `to` slots are planned; or `from` is below `to`, and is forgotten
 *   103  there are more than `room` rows; `count` is written
 * O(slots + rows).
 */
uint32_t pfair_quanta(struct pfair_dispatcher *d, uint64_t from, uint64_t to, uint64_t *count,
    struct pfair_quantum *rows, size_t room);

/* What became of an announcement. From 20 on it is refused, and changed nothing. */
enum pfair_outcome {
    PFAIR_OUTCOME_ADMITTED = 0,              /* of an arrival: the task is a member */
    PFAIR_OUTCOME_DEPARTING = 1,             /* of a departure: the member is departing */
    PFAIR_OUTCOME_DELAYED = 2,               /* of a late release: the subtasks are late */
    PFAIR_OUTCOME_NAME_TAKEN = 20,           /* of an arrival: a member, departing or not, has the name */
    PFAIR_OUTCOME_PERIOD_OUTSIDE_FRAME = 21, /* of an arrival: its period doesn't divide the frame */
    PFAIR_OUTCOME_NO_ROOM = 22,              /* of an arrival: the total weight would exceed M */
    PFAIR_OUTCOME_NO_SUCH_TASK = 23,         /* no member has the name */
    PFAIR_OUTCOME_ALREADY_DEPARTING = 24,    /* the member is departing already */
    PFAIR_OUTCOME_ALREADY_RELEASED = 25      /* of a late release: the subtask was released before, or has run */
};

/* A decision at the boundary of a slot. */
struct pfair_decision {
    uint64_t slot;
    struct pfair_name name;
    uint64_t processor, number; /* which entry announced it */
    uint64_t outcome;           /* one of enum pfair_outcome */
    uint64_t freed_at;          /* of a departure: the slot from which weight and name are free, counted over all runs;
                                   else 0 */
};

/*
 * Writes the decisions at the boundaries of the slots `from` to `to` - 1, slot by slot, each slot's in the order of
 * processor and number. Those of slot t alone are those from t to t + 1. Answers and cost are those of pfair_quanta.
 */
uint32_t pfair_decisions(struct pfair_dispatcher *d, uint64_t from, uint64_t to, uint64_t *count,
    struct pfair_decision *rows, size_t room);

/* The lag of a task at a time, numerator/period in quanta: its fluid share of the slots since it joined, less the
   quanta that it had. If it was never delayed, its lag is below 1, and above -1 unless the task is early. */
struct pfair_lag {
    uint64_t time; /* the end of slot `time` - 1 */
    struct pfair_name name;
    int64_t numerator;
    uint64_t period; /* of the task */
};

/*
 * Writes the lags after each of the slots `from` to `to` - 1. After slot t, at the time t + 1, there is a row for each
 * member that isn't departing after the boundary of t, in the order of admission. There are none if `from` isn't below
 * `to`. In a next run the lags of members go on.
 *   104  fewer than `to` slots are planned; or `from` is below `to`, and any slot is forgotten
 *   90   an allocation failed
 *   103  there are more than `room` rows; `count` is written
 * Each call counts the lags from slot 0 on: O(rows + s + q + x n) for s slots, q quanta and decisions, and x
 * departures before slot `to`. It allocates a few words for each task, and a copy of at most `room` rows.
 */
uint32_t pfair_lags(struct pfair_dispatcher *d, uint64_t from, uint64_t to, uint64_t *count, struct pfair_lag *rows,
    size_t room);

/* A member: a task that was admitted and isn't freed. */
struct pfair_member {
    struct pfair_name name;
    uint64_t cost, period; /* the weight */
    uint64_t early;        /* 1 if its subtasks may run early, else 0 */
    uint64_t joined;       /* the slot at whose boundary it was admitted; pfair_next_run moves it */
    uint64_t next;         /* its next subtask: the first that has not run */
    uint64_t theta;        /* the offset of that subtask's window, for pfair_window: `joined` plus the late releases up
                              to this subtask */
    uint64_t is_departing; /* 1 if it is departing, and gets no more quanta, else 0 */
    uint64_t freed_at;     /* if it is departing: the slot from which weight and name are free; else 0 */
    int64_t lag;           /* its lag after the planned slots, a numerator over `period`: what it is due since it joined
                              less what it has had, both times `period` */
};

/*
 * Writes the members after the planned slots, in the order of admission: the tasks that were admitted and aren't freed
 * at the boundary of the last planned slot, as they are after its table. Lags are those of pfair_lags, in each run and
 * whatever was forgotten; one that 64 bits don't hold, which no run has, would be the nearest that they do.
 *   31   the dispatcher is spent
 *   103  there are more than `room` rows; `count` is written
 * O(rows + l) for l late releases accepted of these tasks.
 */
uint32_t pfair_members(struct pfair_dispatcher *d, uint64_t *count, struct pfair_member *rows, size_t room);

/*
 * Writes the state in which the dispatcher's run began, as text: what a run begins with, in lines of less than 256
 * bytes (docs/SPECIFICATION.md, "A state as rows"). After pfair_next_run it is what the run before has left. Two
 * dispatchers whose runs began alike have the same bytes.
 *   90   an allocation failed
 *   103  there are more than `room` bytes; `length` is written
 * O(bytes).
 */
uint32_t pfair_state(struct pfair_dispatcher *d, uint64_t *length, uint8_t *bytes, size_t room);

/* Why a row of a state is refused, if not by 20 to 22 of enum pfair_outcome: that such a member can't be admitted. */
enum pfair_state_cause {
    PFAIR_CAUSE_OTHER_FORM = 1,   /* the rows are of another form than this library's */
    PFAIR_CAUSE_OUT_OF_RANGE = 2, /* processors, frame or slot are out of their ranges */
    PFAIR_CAUSE_NOT_LEFT = 3,     /* no run leaves such a member */
    PFAIR_CAUSE_QUANTUM = 4,      /* the slot before can't have had this quantum beside those above */
    PFAIR_CAUSE_ROWS_MISSING = 5  /* the last row tells another number of rows */
};

/* Where the text of a state is at fault. */
struct pfair_state_fault {
    uint64_t line;  /* counted from 1 */
    uint64_t cause; /* after 69: one of enum pfair_state_cause, or 20 to 22 of enum pfair_outcome; else 0 */
};

/*
 * Opens a dispatcher for a run of 1 to 1,000,000 slots that begins with the state of a text, with logs of at most
 * `capacity` entries (1 to 4,096). It has no entries and has planned nothing. From the text that pfair_state gives
 * after pfair_next_run it begins as that run did, in a process that has seen no run before. No check tells whether a
 * run has left a state: compare the bytes of two machines.
 *   101     the handle already has a dispatcher
 *   100     a number is out of its range
 *   66      `length` is over 67,108,864
 *   68, 69  the text's first fault, which is written to `fault`
 *   33      the run would end after slot 824,633,720,832, counted over all runs
 *   90      an allocation failed
 * The handle is as before unless the answer is 0. O(length + n log n + l log l) for n members with l late releases.
 */
uint32_t pfair_resume(struct pfair_dispatcher *d, uint64_t slots, uint32_t capacity, struct pfair_state_fault *fault,
    const uint8_t *bytes, size_t length);

#ifdef __cplusplus
}
#endif
#endif
