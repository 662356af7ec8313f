/* A thread that sends two messages takes the memory of a few notes, and not that of all. */
#include "calls.h"
#include <pthread.h>
#include <stdio.h>
#include <unistd.h>

enum { THREADS = 64, SENDS = 100, MOST = 32 }; /* kilobytes of a thread, with its stack */

static pthread_barrier_t all_sent, all_measured;

/* In kilobytes. */
static long resident(void)
{
    long unused, pages = 0;
    FILE *file = fopen("/proc/self/statm", "r");
    if (!file || fscanf(file, "%ld %ld", &unused, &pages) != 2) printf("statm isn't read\n");
    if (file) fclose(file);
    return pages * (sysconf(_SC_PAGESIZE) / 1024);
}

static void *send(void *object)
{
    SEL equal = sel_registerName("isEqual:"), class_ = sel_registerName("class");
    for (int i = 0; i < SENDS; i++) {
        objc_msg_lookup(object, equal)(object, equal, object);
        objc_msg_lookup(object, class_)(object, class_);
    }
    pthread_barrier_wait(&all_sent);
    pthread_barrier_wait(&all_measured);
    return NULL;
}

int main(void)
{
    pthread_t threads[THREADS];
    id object = class_createInstance(objc_getClass("Object"), 0);
    pthread_barrier_init(&all_sent, NULL, THREADS + 1);
    pthread_barrier_init(&all_measured, NULL, THREADS + 1);
    long before = resident();
    for (int i = 0; i < THREADS; i++) pthread_create(&threads[i], NULL, send, object);
    pthread_barrier_wait(&all_sent);
    long more = resident() - before;
    pthread_barrier_wait(&all_measured);
    for (int i = 0; i < THREADS; i++) pthread_join(threads[i], NULL);
    object_dispose(object);
#ifdef SANITIZED
    more = 0; /* it keeps more itself */
#endif
    if (more > THREADS * MOST) printf("%ld KB of a thread\n", more / THREADS);
    printf("a few notes each: %d\n", more <= THREADS * MOST);
    return 0;
}
