/* What several lookups as one take, a rest, and asking who is in old code:
 *
 *     rests THREADS    the last with so many threads that were answered; nanoseconds, a line each
 *
 * So too of senders of a host's own. */
#include "msg_process.h"
#include <sched.h>
#include <stdatomic.h>
#include <stdio.h>
#include <stdlib.h>
#include <sys/mman.h>
#include <time.h>

enum { CLASS, SELECTORS = 10, ROUNDS = 20000, WINDOWS = 31, STACK = 65536 };

static atomic_int answered;
static pthread_mutex_t gate = PTHREAD_MUTEX_INITIALIZER; /* taken until the end */
static msg_lookup_row rows[SELECTORS];

static void must(uint32_t fault)
{
    if (!fault) return;
    fprintf(stderr, "%s\n", msg_fault_text(fault));
    exit(1);
}

static void *stay(void *unused)
{
    uint32_t imp;
    (void)unused;
    must(msg_process_find(CLASS, false, 1, &imp));
    answered++;
    pthread_mutex_lock(&gate);
    pthread_mutex_unlock(&gate);
    return NULL;
}

static void find_one_by_one(void)
{
    uint32_t imp;
    for (uint32_t sel = 1; sel <= SELECTORS; sel++) must(msg_process_find(CLASS, false, sel, &imp));
}

static void find_as_one(void)
{
    uint32_t imps[SELECTORS];
    size_t place;
    must(msg_process_find_all(rows, SELECTORS, imps, &place));
}

/* By a sender and a lock of the host's own. */
static msg_runtime mine = MSG_RUNTIME_INIT;
static pthread_mutex_t lock = PTHREAD_MUTEX_INITIALIZER;
static struct { _Alignas(64) msg_sender sender; } seat;

static void call_one_by_one(void)
{
    uint32_t imp;
    for (uint32_t sel = 1; sel <= SELECTORS; sel++)
        must(msg_find(&mine, &lock, &seat.sender, CLASS, false, sel, &imp));
}

static void call_as_one(void)
{
    uint32_t imps[SELECTORS];
    size_t place;
    must(msg_find_all(&mine, &lock, &seat.sender, rows, SELECTORS, imps, &place));
}

static void rest(void) { must(msg_process_rest()); }

static void change(void)
{
    static uint32_t imp;
    msg_runtime *runtime;
    must(msg_process_lock(&runtime));
    must(msg_replace(runtime, CLASS, false, 1, 1 + imp++ % 2));
    msg_process_unlock();
}

static void change_and_rest(void) { change(), rest(); }

static void ask(void)
{
    uint64_t changes, thread;
    must(msg_process_seen_by_all(&changes, &thread));
}

static double now(void)
{
    struct timespec at;
    clock_gettime(CLOCK_MONOTONIC, &at);
    return at.tv_sec + at.tv_nsec * 1e-9;
}

static int is_less(const void *one, const void *other)
{
    double a = *(const double *)one, b = *(const double *)other;
    return (a > b) - (a < b);
}

/* The median of windows. */
static void tell(const char *what, void (*run)(void), int rounds)
{
    double times[WINDOWS];
    for (int i = 0; i < WINDOWS; i++) {
        double start = now();
        for (int j = 0; j < rounds; j++) run();
        times[i] = (now() - start) / rounds;
    }
    qsort(times, WINDOWS, sizeof *times, is_less);
    printf("%-44s %9.1f ns\n", what, times[WINDOWS / 2] * 1e9);
}

static void make_class(msg_runtime *runtime)
{
    must(msg_make_root_class(runtime, CLASS));
    for (uint32_t sel = 1; sel <= SELECTORS; sel++) {
        must(msg_add(runtime, CLASS, false, sel, 1));
        rows[sel - 1] = (msg_lookup_row){.number = CLASS, .sel = sel};
    }
}

/* Senders of the host's own, of a runtime that has room for the most. */
enum { MOST = 16384 };
static struct seat { _Alignas(64) msg_sender sender; } *own; /* zero bytes: closed */
static msg_runtime full = MSG_RUNTIME_INIT;

static void own_rest(void) { must(msg_rest(&full, &own[0].sender)); }

static void own_ask(void)
{
    uint64_t count;
    must(msg_seen_by_all(&full, &count));
}

static void open_and_close(void)
{
    must(msg_sender_open(&full, &own[MOST - 1].sender));
    must(msg_sender_close(&full, &own[MOST - 1].sender));
}

static void tell_own(void)
{
    static const int open[] = {1, 1000, MOST - 1};
    msg_config config = {.senders = MOST};
    char what[64];
    int how = MAP_PRIVATE | MAP_ANONYMOUS | MAP_NORESERVE;
    own = mmap(NULL, MOST * sizeof *own, PROT_READ | PROT_WRITE, how, -1, 0);
    must(own == MAP_FAILED ? MSG_NO_MEMORY : msg_open(&full, &config));
    for (int i = 0, k = 0; k < 3; k++) {
        while (i < open[k]) must(msg_sender_open(&full, &own[i++].sender));
        if (!k) tell("a rest of one's own sender", own_rest, ROUNDS);
        snprintf(what, sizeof what, "asking, %d senders of one's own", open[k]);
        tell(what, own_ask, 200);
        snprintf(what, sizeof what, "opening and closing one more than %d", open[k]);
        tell(what, open_and_close, 200);
    }
}

int main(int count, char **words)
{
    int threads = count > 1 ? atoi(words[1]) : 1000;
    pthread_attr_t small;
    pthread_t *all = calloc((size_t)threads + 1, sizeof *all);
    msg_runtime *runtime;
    pthread_attr_init(&small);
    pthread_attr_setstacksize(&small, STACK);
    must(msg_process_start(&(msg_config){.senders = 16384}));
    must(msg_process_lock(&runtime));
    make_class(runtime);
    msg_process_unlock();
    must(msg_open(&mine, NULL));
    make_class(&mine);
    must(msg_sender_open(&mine, &seat.sender));
    tell("ten noted lookups by msg_find", call_one_by_one, ROUNDS);
    tell("ten noted lookups by msg_find_all", call_as_one, ROUNDS);
    tell("ten by msg_process_find, inline", find_one_by_one, ROUNDS);
    tell("ten by msg_process_find_all", find_as_one, ROUNDS);
    tell("a rest where nothing has changed", rest, ROUNDS);
    tell("a change", change, ROUNDS / 10);
    tell("a change, and a rest after it", change_and_rest, ROUNDS / 10);
    tell("who is in old code, of one thread", ask, ROUNDS);
    tell_own();
    pthread_mutex_lock(&gate);
    for (int i = 0; i < threads; i++)
        if (pthread_create(&all[i], &small, stay, NULL)) exit(1);
    while (answered < threads) sched_yield();
    printf("%d threads:\n", threads);
    tell("who is in old code, of so many more", ask, ROUNDS / 20);
    pthread_mutex_unlock(&gate);
    for (int i = 0; i < threads; i++) pthread_join(all[i], NULL);
    return 0;
}
