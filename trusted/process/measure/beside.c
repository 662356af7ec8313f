/* Senders that find beside changes: millions of lookups a second, and how many changes were made.
 * Of tools/measure/process. */
#define _GNU_SOURCE 1 /* for the kind of lock */
#include "msg_runtime.h"
#include <pthread.h>
#include <stdatomic.h>
#include <stdio.h>
#include <stdlib.h>
#include <string.h>
#include <time.h>
enum { CLASSES = 32, SELECTORS = 24, LOOKUPS = 127, MOST = 8 };
static msg_runtime runtime = MSG_RUNTIME_INIT;
static pthread_mutex_t lock = PTHREAD_ADAPTIVE_MUTEX_INITIALIZER_NP;
static uint32_t selectors[SELECTORS];
static atomic_bool ends;
static void want(uint32_t answer)
{
    if (answer != MSG_DONE) {
        fprintf(stderr, "fault %u\n", answer);
        exit(1);
    }
}
static uint64_t now(void)
{
    struct timespec t;
    clock_gettime(CLOCK_MONOTONIC, &t);
    return t.tv_sec * 1000000000ull + t.tv_nsec;
}
static void make(void)
{
    for (int s = 0; s < SELECTORS; s++) selectors[s] = 1 + s;
    for (uint32_t c = 0; c <= CLASSES; c++) {
        msg_method methods[SELECTORS];
        for (int s = 0; s < SELECTORS; s++) methods[s] = (msg_method){selectors[s], 1 + c};
        want(c ? msg_make_class(&runtime, c, 0) : msg_make_root_class(&runtime, 0));
        want(msg_attach(&runtime, c, methods, SELECTORS, methods, 0));
    }
}
typedef struct {
    _Alignas(128) msg_sender sender;
    uint64_t finds, sum;
    uint64_t state;
} job;
static void *work(void *taken)
{
    job *j = taken;
    uint64_t state = j->state, sum = 0, finds = 0, seen;
    while (!atomic_load_explicit(&ends, memory_order_relaxed)) {
        want(msg_refresh(&j->sender, &seen));
        for (int i = 0; i < LOOKUPS; i++) {
            state ^= state << 13;
            state ^= state >> 7;
            state ^= state << 17;
            uint32_t imp;
            want(msg_find(&runtime, &lock, &j->sender, 1 + (state & 31), false,
                          selectors[(state >> 8) % SELECTORS], &imp));
            sum += imp;
        }
        finds += LOOKUPS;
    }
    j->finds = finds;
    j->sum = sum;
    return NULL;
}
int main(int count, char **words)
{
    if (count < 4) return 2;
    int senders = atoi(words[1]), each = atoi(words[2]), milliseconds = atoi(words[3]),
        all = count > 4;
    want(msg_open(&runtime, NULL));
    make();
    static job jobs[MOST];
    pthread_t threads[MOST];
    for (int i = 0; i < senders; i++) {
        jobs[i].state = 88172645463325252ull + i;
        want(msg_sender_open(&runtime, &jobs[i].sender));
    }
    for (int i = 0; i < senders; i++) pthread_create(&threads[i], NULL, work, &jobs[i]);
    uint64_t start = now(), end = start + milliseconds * 1000000ull, next = start, changes = 0;
    for (uint64_t at; (at = now()) < end;) {
        if (each < 0 || at < next) continue;
        next += each * 1000ull;
        uint32_t class = 1 + changes % CLASSES;
        pthread_mutex_lock(&lock);
        if (all) want(msg_exchange(&runtime, 0, false, selectors[0], 0, false, selectors[1]));
        else want(msg_replace(&runtime, class, false, selectors[changes % SELECTORS], 1 + class));
        pthread_mutex_unlock(&lock);
        changes++;
    }
    atomic_store(&ends, true);
    uint64_t finds = 0;
    for (int i = 0; i < senders; i++) {
        pthread_join(threads[i], NULL);
        finds += jobs[i].finds;
    }
    double seconds = (now() - start) / 1e9;
    printf("%.2f %llu\n", finds / seconds / 1e6, (unsigned long long)changes);
    return 0;
}
