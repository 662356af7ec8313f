/* Threads that allocate and never sent are interrupted: each send of theirs is in a handler of a
 * signal, inside malloc, of a message that others have sent. Some send once, and some a hundred
 * times. No sender is spare: threads that don't end have those. There are no changes and no forks.
 */
#define _GNU_SOURCE
#include "places.h"
#include <pthread.h>
#include <sched.h>
#include <signal.h>
#include <stdlib.h>

enum { THREADS = 500, BLOCKS = 64, STAYING = 4, OFTEN = 100, EACH = 25, PATIENCE = 30 };

static long handled, wrong, begun, stayed;
static _Thread_local volatile long mine;
static id object;
static SEL first;

static void handle(int signal)
{
    (void)signal;
    wrong += send(object, first) != 11;
    count(&handled);
    mine++;
}

static void *stay(void *unused)
{
    (void)unused;
    send(object, first);
    count(&stayed);
    for (;;) pause();
    return NULL;
}

static void *allocate(void *times)
{
    void *blocks[BLOCKS] = {0};
    unsigned random = 1;
    long rounds = 0;
    while (mine < *(const long *)times) {
        random = random * 1664525 + 1013904223;
        void **block = &blocks[random / (UINT32_MAX / BLOCKS + 1)];
        free(*block);
        *block = malloc(2000 + random / 256 % 50000);
        if (!rounds++) count(&begun);
    }
    for (int i = 0; i < BLOCKS; i++) free(blocks[i]);
    return NULL;
}

/* Interrupts the thread until it has sent as often as it wants to. */
static void interrupt(pthread_t thread)
{
    double last = now() + PATIENCE;
    while (pthread_tryjoin_np(thread, NULL)) {
        if (now() > last) end("a thread is stuck in its handler\n");
        pthread_kill(thread, SIGUSR1);
        usleep(200);
    }
}

int main(void)
{
    take();
    first = sel_registerName("one");
    object = class_createInstance(&child, 0);
    send(object, first);
    signal(SIGUSR1, handle);
    for (long i = 0; i < STAYING; i++) {
        pthread_t thread;
        pthread_create(&thread, NULL, stay, NULL);
        while (get(&stayed) == i) sched_yield();
    }
    for (long i = 0; i < THREADS; i++) {
        pthread_t thread;
        long times = i % EACH ? 1 : OFTEN;
        pthread_create(&thread, NULL, allocate, &times);
        while (get(&begun) == i) sched_yield();
        usleep(100 + (unsigned)i % 50);
        interrupt(thread);
    }
    bool is_all = handled >= THREADS + THREADS / EACH * (OFTEN - 1);
    printf("%s handled, wrong %ld\n", is_all ? "all" : "not all", wrong);
    return 0;
}
