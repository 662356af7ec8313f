/* What include/msg_process.h says of each call, one after another: before the start, faults, the
 * lock, threads beyond the senders and at their end, handlers, and forks with the lock. FAULTS are
 * the numbers of the header's enumeration as tools/test/process reads them, each as F(number). */
#define _DEFAULT_SOURCE
#include "msg_process.h"
#include <limits.h>
#include <sched.h>
#include <signal.h>
#include <stdatomic.h>
#include <stdio.h>
#include <stdlib.h>
#include <sys/wait.h>
#include <time.h>
#include <unistd.h>

enum { ROOT, CHILD, UNMADE, CLASSES, SENDERS = 3 };
enum { ONE = 1, TWO, NOBODYS, INHERITED };

static int wrong;

static void want(int line, const char *what, uint64_t found, uint64_t wanted)
{
    if (found == wanted) return;
    wrong++;
    printf("rules.c:%d: %s is %llu, not %llu\n", line, what, (unsigned long long)found,
           (unsigned long long)wanted);
}
#define WANT(found, wanted) want(__LINE__, #found, found, wanted)

static msg_runtime *runtime;

/* An implementation's number, or a fault behind 1,000. */
static uint32_t find(uint32_t number, bool meta, uint32_t sel)
{
    uint32_t imp = 999, fault = msg_process_find(number, meta, sel, &imp);
    if (fault) WANT(imp, 999);
    return fault ? 1000 + fault : imp;
}

static uint32_t find_at_once(uint32_t number, bool meta, uint32_t sel)
{
    uint32_t imp = 999, fault = msg_process_find_at_once(number, meta, sel, &imp);
    if (fault) WANT(imp, 999);
    return fault ? 1000 + fault : imp;
}

static uint32_t set(uint32_t number, bool meta, uint32_t sel, uint32_t imp)
{
    uint32_t fault = msg_process_lock(&runtime);
    if (fault) return 1000 + fault;
    fault = msg_replace(runtime, number, meta, sel, imp);
    msg_process_unlock();
    return fault;
}

static void texts(void)
{
    static const uint32_t numbers[] = {
#define F(number) number,
        FAULTS
#undef F
    };
    enum { COUNT = sizeof numbers / sizeof *numbers };
    const char *unknown = msg_fault_text(12345);
    for (int i = 0; i < COUNT; i++) {
        const char *text = msg_fault_text(numbers[i]);
        if (strlen(text) < 4 || !strcmp(text, unknown)) WANT(numbers[i], 0); /* it has no text */
        for (int k = 0; k < i; k++)
            if (!strcmp(text, msg_fault_text(numbers[k])) && numbers[i] != numbers[k])
                WANT(numbers[i], numbers[k]);
    }
    WANT(COUNT >= 19, 1);
    WANT(msg_version(), MSG_VERSION_NUMBER);
    WANT(MSG_VERSION_NUMBER,
         1000000 * MSG_VERSION_MAJOR + 1000 * MSG_VERSION_MINOR + MSG_VERSION_PATCH);
}

/* As soon as it is told anything but that, the words are there. */
static void *find_from_before(void *none)
{
    while (find(ROOT, false, ONE) == 1000 + MSG_CLOSED) sched_yield();
    WANT(__atomic_load_n(&msg_process_words.at, __ATOMIC_RELAXED) != &msg_process_words.none, 1);
    return none;
}

static void before_start(void)
{
    pthread_t thread;
    WANT(find(ROOT, false, ONE), 1000 + MSG_CLOSED);
    WANT(find_at_once(ROOT, false, ONE), 1000 + MSG_CLOSED);
    WANT(msg_process_lock(&runtime), MSG_CLOSED);
    WANT(runtime != NULL, 0);
    msg_process_unlock();
    WANT(msg_process_start(&(msg_config){.classes = 1048577}), MSG_BAD_CONFIG);
    WANT(find(ROOT, false, ONE), 1000 + MSG_CLOSED);
    pthread_create(&thread, NULL, find_from_before, NULL);
    usleep(1000);
    WANT(msg_process_start(&(msg_config){.classes = CLASSES, .senders = SENDERS}), MSG_DONE);
    pthread_join(thread, NULL);
    WANT(msg_process_start(NULL), MSG_ALREADY_OPEN);
    WANT(msg_process_start(&(msg_config){.classes = 1048577}), MSG_ALREADY_OPEN);
}

static void finds(void)
{
    WANT(find(ROOT, false, ONE), 0);
    WANT(find(ROOT, false, 0), 1000 + MSG_NO_SELECTOR);
    WANT(msg_process_lock(&runtime), MSG_DONE);
    WANT(msg_make_root_class(runtime, ROOT), MSG_DONE);
    WANT(msg_make_class(runtime, CHILD, ROOT), MSG_DONE);
    WANT(msg_process_start(NULL), MSG_LOCK_HELD);
    msg_process_unlock();
    msg_process_unlock(); /* what it doesn't hold */
    WANT(set(ROOT, false, ONE, 11), MSG_DONE);
    WANT(set(ROOT, true, ONE, 12), MSG_DONE);
    for (int i = 0; i < 3; i++) {
        WANT(find(CHILD, false, ONE), 11);
        WANT(find(CHILD, true, ONE), 12);
        WANT(find(CHILD, false, NOBODYS), 0);
        WANT(find(UNMADE, false, ONE), 0);
        WANT(find(CLASSES, false, ONE), 1000 + MSG_NO_CLASS);
        /* twice of it is twice CHILD */
        WANT(find(CHILD + (1u << 31), false, ONE), 1000 + MSG_NO_CLASS);
        WANT(find(CHILD, false, 0), 1000 + MSG_NO_SELECTOR);
        WANT(find(CHILD, false, UINT32_MAX), 0);
    }
}

/* A find is answered from what was noted, also after a change that was refused, and of a class that
 * a change didn't reach. */
static void noted(void)
{
    WANT(set(UNMADE, false, ONE, 13), MSG_NO_SUCH_CLASS);
    WANT(set(ROOT, false, ONE, 0), MSG_NO_SUCH_IMP);
    uint64_t turns = msg_process_own.turns;
    WANT(find(CHILD, false, ONE), 11);
    WANT(msg_process_own.turns, turns);
    WANT(set(CHILD, false, ONE, 14), MSG_DONE);
    WANT(find(CHILD, true, ONE), 12);
    WANT(msg_process_own.turns, turns);
    WANT(find(CHILD, false, ONE), 14);
    WANT(msg_process_own.turns, turns + 1);
    WANT(find(ROOT, false, ONE), 11);
    WANT(find(CHILD, true, INHERITED), 0); /* a root's metaclass stands below the root */
    WANT(set(ROOT, false, INHERITED, 19), MSG_DONE);
    WANT(find(CHILD, true, INHERITED), 19);
}

/* A list reaches the classes of all its parts. The second gives back what was there. */
static void listed(void)
{
    const msg_change parts[] = {
        {.kind = MSG_REPLACES, .number = CHILD, .sel = ONE, .imp = 15},
        {.kind = MSG_REPLACES, .number = ROOT, .meta = true, .sel = ONE, .imp = 16},
        {.kind = MSG_REPLACES, .number = CHILD, .sel = ONE, .imp = 14},
        {.kind = MSG_REPLACES, .number = ROOT, .meta = true, .sel = ONE, .imp = 12}};
    for (int i = 0; i < 4; i += 2) {
        size_t place;
        WANT(msg_process_lock(&runtime), MSG_DONE);
        WANT(msg_change_all(runtime, parts + i, 2, &place), MSG_DONE);
        msg_process_unlock();
        WANT(find(CHILD, false, ONE), parts[i].imp);
        WANT(find(CHILD, true, ONE), parts[i + 1].imp);
    }
}

/* Of several faults the first is returned: no selector, no class, no implementation. */
static void faults_in_order(void)
{
    const msg_method whole = {ONE, 11}, no_sel = {0, 11}, no_imp = {ONE, 0}, none = {0, 0};
    WANT(msg_process_lock(&runtime), MSG_DONE);
    WANT(msg_attach(runtime, UNMADE, &whole, 1, &none, 1), MSG_NO_SELECTOR);
    WANT(msg_attach(runtime, CHILD, &no_imp, 1, &no_sel, 1), MSG_NO_SELECTOR);
    WANT(msg_attach(runtime, UNMADE, &no_imp, 1, NULL, 0), MSG_NO_SUCH_CLASS);
    WANT(msg_attach(runtime, CHILD, &no_imp, 1, NULL, 0), MSG_NO_SUCH_IMP);
    msg_process_unlock();
    WANT(find(CHILD, false, ONE), 14);
}

/* With the lock, what is noted is found; of a class that a change reached nothing, until it is
 * answered under the lock. */
static void locked(void)
{
    uint32_t imp;
    WANT(find(CHILD, false, ONE), 14);
    WANT(find(CHILD, true, ONE), 12);
    WANT(msg_process_lock(&runtime), MSG_DONE);
    WANT(find(CHILD, false, ONE), 14);
    WANT(find(CHILD, true, TWO), 1000 + MSG_LOCK_HELD);
    WANT(msg_lookup(runtime, CHILD, true, ONE, &imp) ? 0 : imp, 12);
    WANT(msg_process_lock(&runtime), MSG_LOCK_HELD);
    msg_process_unlock();
    WANT(find(CHILD, true, TWO), 0);
    WANT(msg_process_lock(&runtime), MSG_DONE);
    WANT(find(CHILD, false, ONE), 14);
    WANT(msg_replace(runtime, CHILD, false, ONE, 15), MSG_DONE);
    WANT(find(CHILD, false, ONE), 1000 + MSG_LOCK_HELD);
    WANT(find(CHILD, true, ONE), 12);
    msg_process_cache(msg_key(2 * CHILD, ONE));
    WANT(find(CHILD, false, ONE), 15);
    msg_process_cache(msg_key(2 * CLASSES, ONE)); /* of nobody */
    msg_process_unlock();
    WANT(find(CHILD, false, ONE), 15);
}

/* ---- lookups of one place, which has two notes ---- */

enum { PLACED = 100, HERE = 5 };
static uint32_t here[HERE] = {21, 65533, 65534, 70000, 0}; /* of the last there is no method */

static uint32_t sel_here(int i) { return PLACED + (uint32_t)i * MSG_NOTES; }

static void find_here(int one, int other)
{
    WANT(find(CHILD, false, sel_here(one)), here[one]);
    WANT(find(CHILD, false, sel_here(other)), here[other]);
}

static uint64_t fills(void)
{
    struct msg_report_row report = {0};
    WANT(msg_process_lock(&runtime), MSG_DONE);
    WANT(msg_report(runtime, &report), MSG_DONE);
    msg_process_unlock();
    return report.fills;
}

/* Both stay noted, also under the lock, until a change. A first note that says no method is asked
 * again on the slow way. The other may put out the one, if that was noted before; so they are found
 * twice. */
static void two_of_a_place(int one, int other)
{
    bool are_methods = here[one] && here[other];
    for (int i = 0; i < 2; i++) find_here(one, other);
    uint64_t turns = msg_process_own.turns, filled = fills();
    for (int i = 0; i < 10; i++) find_here(one, other);
    if (are_methods) WANT(msg_process_own.turns, turns);
    WANT(fills(), filled);
    WANT(msg_process_lock(&runtime), MSG_DONE);
    find_here(one, other);
    msg_process_unlock();
    for (int i = 0; i < 2 && are_methods; i++) {
        int changed = i ? one : other;
        WANT(set(CHILD, false, sel_here(changed), ++here[changed]), MSG_DONE);
        find_here(one, other);
    }
}

/* Each puts out the older of the others. */
static void three_of_a_place(void)
{
    for (int i = 1; i < 20; i++) {
        uint64_t turns = msg_process_own.turns;
        WANT(find(CHILD, false, sel_here(i % 3)), here[i % 3]);
        WANT(msg_process_own.turns, turns + 1);
    }
}

/* Twice each two of an odd number: so each is noted first, and second. */
static void of_a_place(void)
{
    for (int i = 0; i < HERE; i++)
        if (here[i]) WANT(set(CHILD, false, sel_here(i), here[i]), MSG_DONE);
    for (int i = 0; i < 2 * HERE; i++) two_of_a_place(i % HERE, (i + 1) % HERE);
    three_of_a_place();
}

/* ---- handlers ---- */

static volatile uint32_t handled[4];

static void handle(int signal)
{
    (void)signal;
    msg_runtime *asked;
    handled[0] = find(CHILD, false, ONE);
    handled[1] = find(CHILD, true, TWO + 1000);
    handled[2] = msg_process_lock(&asked);
    if (!handled[2]) msg_process_unlock();
    handled[3] = find_at_once(CHILD, true, TWO + 1001);
}

static pthread_barrier_t is_locked, is_asked;

static void *hold(void *none)
{
    msg_runtime *held;
    WANT(msg_process_lock(&held), MSG_DONE);
    pthread_barrier_wait(&is_locked);
    pthread_barrier_wait(&is_asked);
    msg_process_unlock();
    return none;
}

enum { SECOND = 1000, MOMENT = 100, TRIES = 5 }; /* in milliseconds, but for the last */

static long now(void)
{
    struct timespec at;
    clock_gettime(CLOCK_MONOTONIC, &at);
    return at.tv_sec * 1000 + at.tv_nsec / 1000000;
}

/* How long a find takes that can't have the lock, at the best: other programs may slow it down. */
static long time_without(void *(*find_in_vain)(void *), long enough)
{
    long least = LONG_MAX;
    for (int i = 0; i < TRIES && least >= enough; i++) {
        pthread_t thread;
        long begin = now();
        pthread_create(&thread, NULL, find_in_vain, NULL);
        pthread_join(thread, NULL);
        if (now() - begin < least) least = now() - begin;
    }
    return least;
}

static void *in_vain_at_once(void *none)
{
    WANT(find_at_once(CHILD, true, TWO + 1002), 1000 + MSG_LOCK_HELD);
    return none;
}

static uint32_t find_for_a_while(uint32_t sel)
{
    uint32_t imp;
    return msg_process_find_slowly(msg_key(msg_slot(CHILD, true), sel), MSG_WAITS_A_WHILE, &imp);
}

/* A thread's first find, which wants the lock for its sender and then for what it finds. */
static void *in_vain_for_a_while(void *none)
{
    WANT(find_for_a_while(TWO + 1002), MSG_LOCK_HELD);
    return none;
}

static void *hold_for_a_moment(void *none)
{
    msg_runtime *held;
    WANT(msg_process_lock(&held), MSG_DONE);
    pthread_barrier_wait(&is_locked);
    usleep(1000 * MOMENT);
    msg_process_unlock();
    return none;
}

static void for_a_while(void)
{
    pthread_t thread;
    pthread_create(&thread, NULL, hold_for_a_moment, NULL);
    pthread_barrier_wait(&is_locked);
    WANT(find_for_a_while(TWO + 1003), MSG_DONE);
    pthread_join(thread, NULL);
    WANT(msg_process_lock(&runtime), MSG_DONE);
    msg_process_unlock();
}

/* While another thread has the lock: what is noted is found, and nothing waited for. */
static void at_once(void)
{
    pthread_t thread;
    pthread_barrier_init(&is_locked, NULL, 2);
    pthread_barrier_init(&is_asked, NULL, 2);
    WANT(find_at_once(CHILD, false, ONE), 15);
    WANT(find_at_once(CHILD, false, 0), 1000 + MSG_NO_SELECTOR);
    WANT(find_at_once(CHILD + (1u << 31), false, ONE), 1000 + MSG_NO_CLASS);
    pthread_create(&thread, NULL, hold, NULL);
    pthread_barrier_wait(&is_locked);
    WANT(find_at_once(CHILD, false, ONE), 15);
    WANT(find_at_once(CHILD, true, TWO + 1002), 1000 + MSG_LOCK_HELD);
    WANT(time_without(in_vain_at_once, SECOND / 2) < SECOND / 2, 1);
    WANT(time_without(in_vain_for_a_while, 2 * SECOND) / SECOND, 1);
    pthread_barrier_wait(&is_asked);
    pthread_join(thread, NULL);
    WANT(find_at_once(CHILD, true, TWO + 1002), 0);
    for_a_while();
}

/* In a thread that hasn't found before, it takes no memory, and so no sender; nor does it stand
 * in the way of one later. */
static void *find_first_at_once(void *none)
{
    WANT(find_at_once(CHILD, false, ONE), 15);
    WANT(msg_process_own.sender->open, 0);
    WANT(find(CHILD, false, ONE), 15);
    WANT(msg_process_own.sender->open, 1);
    return none;
}

static void handlers(void)
{
    signal(SIGUSR1, handle);
    WANT(find(CHILD, false, ONE), 15);
    raise(SIGUSR1);
    WANT(handled[0], 15);
    WANT(handled[1], 0);
    WANT(handled[2], MSG_DONE);
    WANT(set(ROOT, true, TWO, 16), MSG_DONE);
    WANT(find(CHILD, false, ONE), 15);
    WANT(msg_process_lock(&runtime), MSG_DONE);
    raise(SIGUSR1);
    msg_process_unlock();
    WANT(handled[0], 15);
    WANT(handled[1], 1000 + MSG_LOCK_HELD);
    WANT(handled[2], MSG_LOCK_HELD);
    WANT(handled[3], 1000 + MSG_LOCK_HELD);
    raise(SIGUSR1);
    WANT(handled[1], 0);
    WANT(handled[2], MSG_DONE);
    WANT(handled[3], 0);
    at_once();
    pthread_t thread;
    pthread_create(&thread, NULL, find_first_at_once, NULL);
    pthread_join(thread, NULL);
}

/* ---- threads ---- */

/* How many more senders there are: each is opened and closed. */
static uint32_t left(void)
{
    static msg_sender taken[SENDERS + 1];
    uint32_t count = 0;
    WANT(msg_process_lock(&runtime), MSG_DONE);
    while (count <= SENDERS && !msg_sender_open(runtime, &taken[count])) count++;
    for (uint32_t i = 0; i < count; i++) msg_sender_close(runtime, &taken[i]);
    msg_process_unlock();
    return count;
}

static pthread_key_t ending;
static pthread_barrier_t all_found;

static void at_end(void *rounds)
{
    WANT(find(CHILD, false, ONE), 15);
    WANT(find(ROOT, true, ONE), 12);
    if ((size_t)rounds > 1) pthread_setspecific(ending, (char *)rounds - 1);
}

/* Of destructors: in all, so also after the layer's last. ThreadSanitizer ends a thread before
 * the last. */
#ifdef SANITIZED_thread
enum { ROUNDS = PTHREAD_DESTRUCTOR_ITERATIONS - 1 };
#else
enum { ROUNDS = PTHREAD_DESTRUCTOR_ITERATIONS };
#endif

static void *find_and_end(void *has_sender)
{
    for (int i = 0; i < 3; i++) WANT(find(CHILD, false, ONE), 15);
    *(bool *)has_sender = msg_process_own.sender->open;
    pthread_setspecific(ending, (void *)ROUNDS);
    if (has_sender) pthread_barrier_wait(&all_found);
    return NULL;
}

static void threads(void)
{
    enum { THREADS = SENDERS + 2 };
    pthread_t thread[THREADS];
    bool has[THREADS];
    pthread_key_create(&ending, at_end);
    pthread_barrier_init(&all_found, NULL, THREADS);
    for (int again = 0; again < 20; again++) {
        WANT(left(), SENDERS - 1);
        uint32_t senders = 0;
        for (int i = 0; i < THREADS; i++) pthread_create(&thread[i], NULL, find_and_end, &has[i]);
        for (int i = 0; i < THREADS; i++) {
            pthread_join(thread[i], NULL);
            senders += has[i];
        }
        WANT(senders, SENDERS - 1);
    }
    WANT(left(), SENDERS - 1);
}

/* ---- forks ---- */

static pthread_barrier_t sits, goes;

static void *sit(void *none)
{
    WANT(find(CHILD, false, ONE), 15);
    pthread_barrier_wait(&sits);
    pthread_barrier_wait(&goes);
    WANT(find(CHILD, false, ONE), 15);
    return none;
}

static void *change_in_child(void *none)
{
    WANT(find(CHILD, false, ONE), 17);
    WANT(set(CHILD, false, ONE, 18), MSG_DONE);
    return none;
}

static void child(bool holds)
{
    pthread_t thread;
    alarm(60);
    WANT(find(CHILD, false, ONE), 15);
    if (holds) {
        WANT(find(CHILD, true, TWO + 2000), 1000 + MSG_LOCK_HELD);
        WANT(msg_replace(runtime, CHILD, false, ONE, 16), MSG_DONE);
        msg_process_unlock();
        WANT(find(CHILD, false, ONE), 16);
    }
    WANT(left(), SENDERS - 1);
    WANT(set(CHILD, false, ONE, 17), MSG_DONE);
    WANT(find(CHILD, false, ONE), 17);
#ifdef SANITIZED_thread /* it has no threads in a child */
    (void)thread;
    change_in_child(NULL);
#else
    pthread_create(&thread, NULL, change_in_child, NULL);
    pthread_join(thread, NULL);
#endif
    WANT(find(CHILD, false, ONE), 18);
    WANT(left(), SENDERS - 1);
    fflush(stdout);
    _exit(wrong != 0);
}

static void fork_and_wait(bool holds)
{
    pthread_t thread;
    int status = 0;
    pthread_create(&thread, NULL, sit, NULL);
    pthread_barrier_wait(&sits);
    WANT(left(), SENDERS - 2);
    if (holds) WANT(msg_process_lock(&runtime), MSG_DONE);
    fflush(stdout);
    pid_t pid = fork();
    if (!pid) child(holds);
    if (holds) msg_process_unlock();
    waitpid(pid, &status, 0);
    WANT(status, 0);
    pthread_barrier_wait(&goes);
    pthread_join(thread, NULL);
    WANT(find(CHILD, false, ONE), 15);
    WANT(left(), SENDERS - 1);
}

static atomic_bool asks_on, is_asking;

/* Three selectors of one place, which has two notes, and all cached: so it is in a call without
 * the lock nearly always. */
static void *ask(void *none)
{
    while (asks_on) {
        WANT(find(CHILD, false, ONE), 15);
        WANT(find(CHILD, false, ONE + MSG_NOTES), 0);
        WANT(find(CHILD, false, ONE + 2 * MSG_NOTES), 0);
        is_asking = true;
    }
    return none;
}

/* Asked last before a fork, since it is registered before the layer's: the other goes on
 * meanwhile. */
static void let_run(void)
{
    if (asks_on) usleep(100);
}

/* The child closes the other's sender, which is in no call then. */
static void fork_beside_asking(void)
{
    pthread_t thread;
    asks_on = true;
    pthread_create(&thread, NULL, ask, NULL);
    for (int i = 0; i < 50; i++) {
        int status = 0;
        for (is_asking = false; !is_asking;) sched_yield();
        pid_t pid = fork();
        if (!pid) {
            wrong = 0;
            alarm(60);
            WANT(find(CHILD, false, ONE), 15);
            WANT(left(), SENDERS - 1);
            fflush(stdout);
            _exit(wrong != 0);
        }
        waitpid(pid, &status, 0);
        WANT(status, 0);
    }
    asks_on = false;
    pthread_join(thread, NULL);
}

int main(void)
{
    alarm(220);
    pthread_atfork(let_run, NULL, NULL);
    texts();
    before_start();
    finds();
    noted();
    listed();
    faults_in_order();
    locked();
    of_a_place();
    handlers();
    threads();
    pthread_barrier_init(&sits, NULL, 2);
    pthread_barrier_init(&goes, NULL, 2);
    for (int i = 0; i < 4; i++) fork_and_wait(i % 2);
    fork_beside_asking();
    printf("rules: %d broken\n", wrong);
    return wrong != 0;
}
