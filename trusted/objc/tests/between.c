/* A change is stopped before each single instruction of it, and there a handler of a signal
 * sends, then another thread, and the handler again: none finds an older method than who found
 * one before it. The other thread may have to wait for the change's lock: then it sleeps, and isn't
 * waited for. */
#define _GNU_SOURCE /* for the names of registers */
#include "modules.h"
#include <fcntl.h>
#include <pthread.h>
#include <sched.h>
#include <signal.h>
#include <sys/syscall.h>
#include <ucontext.h>
#include <unistd.h>

enum { ENDLESS = 100000 };

static SEL first;
static id object;
static long wrong, asked, answered, beside, waited, tid;

static long get(long *at) { return __atomic_load_n(at, __ATOMIC_SEQ_CST); }
static void set(long *at, long to) { __atomic_store_n(at, to, __ATOMIC_SEQ_CST); }

/* Until it is asked -1 times. */
static void *answer_on(void *none)
{
    set(&tid, syscall(SYS_gettid));
    for (long last = 0, now; (now = get(&asked)) >= 0; last = now) {
        if (now == last) sched_yield();
        else {
            set(&beside, send(object, first));
            set(&answered, now);
        }
    }
    return none;
}

/* Of the other thread, which elsewhere goes on. The state is told behind its name. */
static bool sleeps(void)
{
    char path[64], text[128] = "";
    snprintf(path, sizeof path, "/proc/self/task/%ld/stat", get(&tid));
    int file = open(path, O_RDONLY);
    const char *end = read(file, text, sizeof text - 1) > 0 ? strrchr(text, ')') : NULL;
    close(file);
    return end && end[2] == 'S';
}

/* The other thread's answer, or 0 where it has to wait. */
static long ask(void)
{
    long number = get(&asked) + 1;
    set(&asked, number);
    while (get(&answered) != number && !sleeps()) sched_yield();
    return get(&answered) == number ? get(&beside) : 0;
}

#if defined(__x86_64__) && !defined(SANITIZED)
enum { TRAP = 1 << 8 };

static volatile long step, at, before, between, after;

static void on_step(int number, siginfo_t *info, void *context)
{
    (void)number, (void)info;
    if (step++ < at) return;
    before = send(object, first);
    between = ask();
    after = send(object, first);
    ((ucontext_t *)context)->uc_mcontext.gregs[REG_EFL] &= ~TRAP;
}

static inline __attribute__((always_inline)) void trap(int on)
{
    unsigned long flags = __builtin_ia32_readeflags_u64();
    __builtin_ia32_writeeflags_u64(on ? flags | TRAP : flags & ~(unsigned long)TRAP);
}

/* 0 where the answer isn't known, 1 of what was before the change, 2 of what is after it. */
static int rank(long answer, long new_one)
{
    return !answer ? 0 : answer == new_one ? 2 : answer == 23 - new_one ? 1 : 3;
}

static void judge(long new_one)
{
    int ranks[] = {rank(before, new_one), rank(between, new_one), rank(after, new_one)}, least = 1;
    for (int i = 0; i < 3; i++) {
        if (ranks[i] > 2 || (ranks[i] && ranks[i] < least)) wrong++;
        if (ranks[i] > least) least = ranks[i];
    }
    waited += !between;
}

static long change_each(void)
{
    struct sigaction action = {.sa_sigaction = on_step, .sa_flags = SA_SIGINFO};
    long next = 0;
    sigaction(SIGTRAP, &action, NULL);
    for (; next < ENDLESS; next++) {
        long new_one = next & 1 ? 11 : 12;
        at = next;
        step = 0;
        before = between = after = 23 - new_one;
        trap(1);
        class_replaceMethod(&root, first, next & 1 ? one : two, "@16@0:8");
        trap(0);
        judge(new_one);
        while (get(&answered) != get(&asked)) sched_yield();
        if (send(object, first) != new_one || ask() == 23 - new_one) wrong++;
        while (get(&answered) != get(&asked)) sched_yield();
        if (step <= next) break;
    }
    return next;
}
#else
static long change_each(void)
{
    while (ask() != 11) {}
    return 1;
}
#endif

int main(void)
{
    pthread_t thread;
    take();
    first = sel_registerName("one");
    object = class_createInstance(&child, 0);
    send(object, first);
    pthread_create(&thread, NULL, answer_on, NULL);
    while (!get(&tid)) sched_yield();
    long steps = change_each();
    set(&asked, -1);
    pthread_join(thread, NULL);
    fprintf(stderr, "%ld steps; the other thread had to wait at %ld\n", steps, waited);
    printf("tried %d, wrong %ld\n", steps > waited && steps < ENDLESS, wrong);
    object_dispose(object);
    return 0;
}
