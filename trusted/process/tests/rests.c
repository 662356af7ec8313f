/* Rests: which threads msg_process_seen_by_all waits for, and that no thread reads a page that is
 * unmapped once it said so. Each version of a method has a page of its own. A thread that finds the
 * method reads the page for a while, as if it were in the method's code. The thread that changes
 * the method unmaps the old page once the change is seen by all. */
#define _DEFAULT_SOURCE 1 /* for syscall and MAP_ANONYMOUS */
#include "msg_process.h"
#include <sched.h>
#include <signal.h>
#include <stdatomic.h>
#include <stdio.h>
#include <stdlib.h>
#include <sys/mman.h>
#include <sys/syscall.h>
#include <sys/wait.h>
#include <unistd.h>

enum { CLASS, SEL = 1, THREADS = 8, CHANGES = 2000, READS = 2000, ROOM = 64, PAGE = 4096 };
enum { ROUNDS = 2 }; /* of a thread's destructors, in which finds count */

/* ThreadSanitizer ends a thread before its last destructors, and has no threads in a child. */
#ifdef SANITIZED_thread
enum { ENDS_EARLY = true };
#else
enum { ENDS_EARLY = false };
#endif

static long wrong;

#define MUST(is_so) \
    do { \
        if (!(is_so) && !wrong++) fprintf(stderr, "line %d: not so: %s\n", __LINE__, #is_so); \
    } while (0)

static uint64_t own_number(void) { return (uint64_t)syscall(SYS_gettid); }

static uint64_t change(uint32_t imp)
{
    uint64_t changes = 0;
    msg_runtime *runtime;
    MUST(!msg_process_lock(&runtime));
    MUST(!msg_replace(runtime, CLASS, false, SEL, imp));
    MUST(!msg_change_count(runtime, &changes));
    msg_process_unlock();
    return changes;
}

static uint32_t find(void)
{
    uint32_t imp = 0;
    MUST(!msg_process_find(CLASS, false, SEL, &imp));
    return imp;
}

static bool is_held_by(uint64_t changes, uint64_t thread)
{
    uint64_t seen = 0, holder = 99;
    MUST(!msg_process_seen_by_all(&seen, &holder));
    return seen == changes && holder == thread;
}

/* ---- one after another ---- */

enum { FINDS, FINDS_AT_ONCE, RESTS, GOES_AWAY, IS_SENT, ENDS, WAITS };
static atomic_int asked = WAITS;
static atomic_ulong worker;

static void handle(int signal)
{
    uint32_t imp;
    (void)signal;
    MUST(!msg_process_find_at_once(CLASS, false, SEL, &imp));
}

static void do_it(int what)
{
    uint32_t imp;
    if (what == FINDS) find();
    if (what == FINDS_AT_ONCE) MUST(!msg_process_find_at_once(CLASS, false, SEL, &imp));
    if (what == RESTS) MUST(!msg_process_rest());
    if (what == GOES_AWAY) MUST(!msg_process_away());
    if (what == IS_SENT) raise(SIGUSR1);
}

static void *work(void *none)
{
    int what;
    worker = own_number();
    do {
        while ((what = asked) == WAITS) sched_yield();
        do_it(what);
        asked = WAITS;
    } while (what != ENDS);
    return none;
}

static void ask(int what)
{
    asked = what;
    while (asked != WAITS) sched_yield();
}

static void *only_end(void *none) { find(); return none; }

static void under_the_lock(void)
{
    uint64_t seen = 7, thread = 8;
    msg_runtime *runtime;
    MUST(!msg_process_lock(&runtime));
    MUST(msg_process_rest() == MSG_LOCK_HELD);
    MUST(msg_process_away() == MSG_LOCK_HELD);
    MUST(msg_process_seen_by_all(&seen, &thread) == MSG_LOCK_HELD && seen == 7 && thread == 8);
    msg_process_unlock();
}

static void in_a_child(void)
{
    int status = 1;
    pid_t child;
    MUST(!msg_process_rest());
    child = fork();
    if (!child) {
        uint64_t changes = change(90);
        MUST(is_held_by(changes - 1, own_number()));
        MUST(!msg_process_rest() && is_held_by(changes, 0));
        _exit(wrong != 0);
    }
    MUST(waitpid(child, &status, 0) == child && !status);
}

/* A worker that has done this holds the next change back, until it does that. */
static void holds_until(int what, int then)
{
    uint64_t changes;
    MUST(!msg_process_rest());
    ask(what);
    changes = change(20);
    MUST(!msg_process_rest());
    MUST(is_held_by(changes - 1, worker));
    ask(FINDS); /* which sees the change, and isn't a rest */
    MUST(is_held_by(changes - 1, worker));
    ask(then);
    MUST(is_held_by(changes, 0));
    if (then != GOES_AWAY) return;
    MUST(change(21) == changes + 1 && is_held_by(changes, own_number()));
    MUST(!msg_process_rest() && is_held_by(changes + 1, 0));
}

static void one_after_another(void)
{
    pthread_t thread, other;
    uint64_t changes = change(10);
    MUST(is_held_by(changes, 0)); /* nobody was answered */
    find();
    changes = change(11);
    MUST(is_held_by(changes - 1, own_number()));
    MUST(!msg_process_rest() && is_held_by(changes, 0));
    under_the_lock();
    pthread_create(&thread, NULL, work, NULL);
    ask(RESTS); /* it has rested before it was answered, which says nothing */
    holds_until(FINDS_AT_ONCE, RESTS);
    holds_until(FINDS, RESTS);
    holds_until(FINDS, GOES_AWAY);
    holds_until(FINDS, GOES_AWAY);
    holds_until(IS_SENT, RESTS);
    in_a_child();
    changes = change(30);
    MUST(!msg_process_rest() && is_held_by(changes - 1, worker));
    ask(ENDS);
    pthread_join(thread, NULL);
    pthread_create(&other, NULL, only_end, NULL);
    pthread_join(other, NULL);
    MUST(is_held_by(changes, 0));
}

/* ---- a thread at its end ---- */

static pthread_key_t ending;
static atomic_int left_rounds;

/* After the layer's own, whose key came first. What it finds is in use as long as it goes on. */
static void at_end(void *round)
{
    work(NULL);
    if (--left_rounds > 0) pthread_setspecific(ending, round);
}

static void *end_in_rounds(void *none)
{
    pthread_setspecific(ending, &ending);
    return work(none);
}

/* What destructors find holds the next change back, until they end. Of what they find later than
 * in these rounds nobody is told the end, and then no old code is told as left by all. */
static void at_an_end(int rounds)
{
    pthread_t thread;
    uint64_t changes = 0, seen, holder;
    left_rounds = rounds;
    pthread_create(&thread, NULL, end_in_rounds, NULL);
    ask(FINDS);
    ask(ENDS);
    for (int round = 1; round <= rounds && round <= ROUNDS; round++) {
        ask(round % 2 ? FINDS : FINDS_AT_ONCE);
        changes = change(40);
        MUST(!msg_process_rest() && is_held_by(changes - 1, worker));
        ask(FINDS); /* of the newest, which isn't a rest */
        MUST(is_held_by(changes - 1, worker));
        if (round == 2) {
            ask(RESTS);
            MUST(is_held_by(changes, 0));
        }
        if (round < rounds) ask(ENDS);
    }
    if (rounds > ROUNDS) {
        ask(FINDS);
        MUST(msg_process_seen_by_all(&seen, &holder) == MSG_NONE);
    }
    ask(ENDS);
    pthread_join(thread, NULL);
    if (rounds <= ROUNDS) MUST(is_held_by(changes, 0));
}

static bool returns_0_in_a_child(void (*call)(void))
{
    int status = 1;
    pid_t child = fork();
    if (!child) {
        call();
        _exit(wrong != 0);
    }
    return waitpid(child, &status, 0) == child && !status;
}

/* The thread whose end can't be told isn't in a child. */
static void is_told(void)
{
    uint64_t seen, holder;
    MUST(!msg_process_seen_by_all(&seen, &holder));
}

/* In a child, since nobody is told of old code after it. */
static void at_an_end_too_many(void)
{
    at_an_end(ROUNDS + 1);
    MUST(returns_0_in_a_child(is_told));
}

static void at_the_last_end(void) { MUST(returns_0_in_a_child(at_an_end_too_many)); }

/* ---- all at once ---- */

static uint32_t *_Atomic pages[ROOM];
static atomic_bool is_over;
static atomic_long reads, ends;

static uint32_t *new_page(uint32_t number)
{
    int how = MAP_PRIVATE | MAP_ANONYMOUS;
    uint32_t *page = mmap(NULL, PAGE, PROT_READ | PROT_WRITE, how, -1, 0);
    if (page == MAP_FAILED) abort();
    *page = number;
    pages[number % ROOM] = page;
    return page;
}

/* In the page for a while, as in a function. */
static void be_in_it(uint32_t number, unsigned turns)
{
    const volatile uint32_t *page = pages[number % ROOM];
    for (unsigned i = 0; i < turns; i++) {
        MUST(*page == number);
        if (i % 16 == 15) sched_yield();
    }
    reads++;
}

/* Its life: it ends after some rests, now and then it is away. */
static void *live(void *seed)
{
    unsigned random = (unsigned)(uintptr_t)seed;
    for (int i = 0; i < 200 && !is_over; i++) {
        for (int j = 0; j < 3; j++) {
            random = random * 1664525 + 1013904223;
            be_in_it(find(), random >> 27);
        }
        if (random >> 20 & 7) MUST(!msg_process_rest());
        else MUST(!msg_process_away());
    }
    ends++;
    return NULL;
}

static void *live_on(void *seed)
{
    for (uintptr_t i = 0; !is_over; i++) {
        pthread_t thread;
        if (pthread_create(&thread, NULL, live, (void *)((uintptr_t)seed + i * THREADS))) abort();
        pthread_join(thread, NULL);
    }
    return NULL;
}

/* Lives end by their length, too. What is wrong ends the changes. */
static bool is_little(void) { return !wrong && (reads < READS || ends < 2 * THREADS); }

static void all_at_once(void)
{
    pthread_t threads[THREADS];
    uint32_t first = 100, gone = first;
    uint64_t since[ROOM], seen, thread;
    MUST(!msg_process_away());
    new_page(first);
    change(first);
    for (uintptr_t i = 0; i < THREADS; i++) pthread_create(&threads[i], NULL, live_on, (void *)i);
    while (!reads) sched_yield();
    for (uint32_t next = first + 1; next < first + CHANGES || is_little(); next++) {
        new_page(next);
        since[(next - 1) % ROOM] = change(next); /* the page before is left by this one */
        do {
            MUST(!msg_process_seen_by_all(&seen, &thread));
            while (gone < next && since[gone % ROOM] <= seen) munmap(pages[gone++ % ROOM], PAGE);
        } while (next - gone > ROOM / 2 && !sched_yield());
    }
    is_over = true;
    for (int i = 0; i < THREADS; i++) pthread_join(threads[i], NULL);
    MUST(!msg_process_seen_by_all(&seen, &thread));
    MUST(thread == 0);
}

int main(void)
{
    msg_runtime *runtime;
    uint64_t seen, thread;
    MUST(msg_process_rest() == MSG_DONE && msg_process_away() == MSG_CLOSED);
    MUST(msg_process_seen_by_all(&seen, &thread) == MSG_CLOSED);
    signal(SIGUSR1, handle);
    MUST(!msg_process_start(&(msg_config){.classes = 4, .senders = 8}));
    MUST(!msg_process_lock(&runtime));
    MUST(!msg_make_root_class(runtime, CLASS));
    msg_process_unlock();
    pthread_key_create(&ending, at_end);
    one_after_another();
    for (int rounds = 1; rounds <= ROUNDS && !ENDS_EARLY; rounds++) at_an_end(rounds);
    if (!ENDS_EARLY) at_the_last_end();
    if (!wrong) all_at_once();
    printf("rests: %ld wrong\n", wrong);
    return wrong != 0;
}
