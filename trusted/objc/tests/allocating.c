/* A handler of a signal sends in a thread that is inside malloc, beside a thread that forks, at
 * first without changes and then beside one that changes methods: nobody waits for another without
 * end. */
#include "places.h"
#include <pthread.h>
#include <signal.h>
#include <stdlib.h>
#include <sys/wait.h>

enum { KINDS = 3, BLOCKS = 64, ENOUGH = 50, PATIENCE = 90 };

static SEL sels[KINDS];
static id object;
static long handled, wrong, forks, rounds, over, changing;

/* Three share a place of two notes: each puts out one of the others, so it is asked further. */
static void handle(int signal)
{
    (void)signal;
    for (int kind = 0; kind < KINDS; kind++) wrong += send(object, sels[kind]) != 11;
    count(&handled);
}

static void *allocate(void *none)
{
    void *blocks[BLOCKS] = {0};
    unsigned random = 1;
    send(object, sels[0]);
    while (!get(&over)) {
        random = random * 1664525 + 1013904223;
        void **block = &blocks[random / (UINT32_MAX / BLOCKS + 1)];
        free(*block);
        *block = malloc(100 + random / 256 % 5000);
        count(&rounds);
    }
    for (int i = 0; i < BLOCKS; i++) free(blocks[i]);
    return none;
}

static void *fork_often(void *none)
{
    while (!get(&over)) {
        pid_t child = fork();
        if (!child) _exit(0);
        waitpid(child, NULL, 0);
        count(&forks);
        if (get(&changing)) class_replaceMethod(&root, sels[forks % KINDS], one, "@16@0:8");
    }
    return none;
}

/* Whether the thread went on, and was interrupted often enough beside forks. */
static int go_on(pthread_t thread, double seconds)
{
    double start = now(), last = start;
    long seen = get(&rounds);
    set(&handled, 0);
    set(&forks, 0);
    while (now() < start + seconds ||
           ((get(&handled) < ENOUGH || get(&forks) < ENOUGH) && now() < start + PATIENCE)) {
        pthread_kill(thread, SIGUSR1);
        usleep(50);
        if (get(&rounds) != seen) last = now();
        seen = get(&rounds);
        if (now() < last + PATIENCE) continue;
        end("stuck\n");
    }
    return get(&handled) >= ENOUGH && get(&forks) >= ENOUGH;
}

int main(void)
{
    pthread_t threads[2];
    sigset_t own;
    take();
    for (int kind = 0; kind < KINDS; kind++) {
        char name[32];
        snprintf(name, sizeof name, "kind%d", kind);
        sels[kind] = one_place_on(name);
        class_addMethod(&root, sels[kind], one, "@16@0:8");
    }
    object = class_createInstance(&child, 0);
    for (int kind = 0; kind < KINDS; kind++) send(object, sels[kind]);
    signal(SIGUSR1, handle);
    pthread_create(&threads[0], NULL, allocate, NULL);
    sigemptyset(&own);
    sigaddset(&own, SIGUSR1);
    pthread_sigmask(SIG_BLOCK, &own, NULL);
    pthread_create(&threads[1], NULL, fork_often, NULL);
    int enough = go_on(threads[0], 1.5);
    set(&changing, 1);
    enough += go_on(threads[0], 1.5);
    set(&over, 1);
    for (int i = 0; i < 2; i++) pthread_join(threads[i], NULL);
    printf("enough %d, wrong %ld\n", enough, wrong);
    return 0;
}
