/* Messages that lie at one place of a thread's notes, and clocks, for tests in C. */
#include "modules.h"
#include <time.h>
#include <unistd.h>

enum { APART = 8192 }; /* numbers of selectors of one class whose notes lie at one place */

/* A selector so far behind the one that was registered last. */
static inline SEL one_place_on(const char *name)
{
    static int count;
    for (int i = 1; i < APART; i++) {
        char filler[32];
        snprintf(filler, sizeof filler, "filler%d", count++);
        sel_registerName(filler);
    }
    return sel_registerName(name);
}

static inline double now(void)
{
    struct timespec time;
    clock_gettime(CLOCK_MONOTONIC, &time);
    return (double)time.tv_sec + (double)time.tv_nsec / 1e9;
}

static inline long get(long *at) { return __atomic_load_n(at, __ATOMIC_SEQ_CST); }
static inline void set(long *at, long to) { __atomic_store_n(at, to, __ATOMIC_SEQ_CST); }
static inline long count(long *at) { return __atomic_add_fetch(at, 1, __ATOMIC_SEQ_CST); }

/* Where memory may not be had any more. */
static inline void end(const char *line)
{
    if (write(1, line, strlen(line))) _exit(1);
}
