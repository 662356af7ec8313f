/* crowd THREADS SENDS: so many threads at once, each of which looks up SENDS times, in turn 40
 * messages of four classes. Tells how many milliseconds of processors that took, and how many
 * kibibytes were resident at most. */
#include "../tests/calls.h"
#include <pthread.h>
#include <stdio.h>
#include <stdlib.h>
#include <sys/resource.h>

enum { MESSAGES = 10, CLASSES = 4, STACK = 65536 };

__attribute__((objc_root_class)) @interface Crowd0 { Class isa; }
@end
@implementation Crowd0
+ (void)initialize {}
@end
@interface Crowd1 : Crowd0 @end
@implementation Crowd1 @end
@interface Crowd2 : Crowd1 @end
@implementation Crowd2 @end
@interface Crowd3 : Crowd2 @end
@implementation Crowd3 @end

static id objects[CLASSES];
static SEL sels[MESSAGES];
static int sends;
static pthread_barrier_t barrier;

static long one(id self, SEL sel) { return 1; }

static void *look(void *unused)
{
    uintptr_t wrong = 0;
    for (int i = 0; i < sends; i++)
        wrong += objc_msg_lookup(objects[i % CLASSES], sels[i / CLASSES % MESSAGES]) != (IMP)one;
    pthread_barrier_wait(&barrier); /* all are there */
    return (void *)wrong;
}

static void prepare(void)
{
    for (int i = 0; i < CLASSES + MESSAGES; i++) {
        char name[16];
        snprintf(name, sizeof name, "Crowd%d", i);
        if (i < CLASSES) objects[i] = class_createInstance(objc_getClass(name), 0);
        if (i < CLASSES) continue;
        sels[i - CLASSES] = sel_registerName(name);
        class_addMethod(objects[0]->isa, sels[i - CLASSES], (IMP)one, "l16@0:8");
    }
}

int main(int count, char **words)
{
    struct rusage used;
    pthread_attr_t small;
    int threads = atoi(words[1]);
    uintptr_t wrong = 0;
    pthread_t *ids = calloc((size_t)threads, sizeof *ids);
    sends = atoi(words[2]);
    prepare();
    pthread_attr_init(&small);
    pthread_attr_setstacksize(&small, STACK);
    pthread_barrier_init(&barrier, NULL, (unsigned)threads);
    for (int i = 0; i < threads; i++) if (pthread_create(&ids[i], &small, look, NULL)) abort();
    for (int i = 0; i < threads; i++) {
        void *told;
        pthread_join(ids[i], &told);
        wrong += (uintptr_t)told;
    }
    if (wrong) abort();
    getrusage(RUSAGE_SELF, &used);
    printf("%.0f %ld\n", (double)(used.ru_utime.tv_sec + used.ru_stime.tv_sec) * 1e3 +
           (double)(used.ru_utime.tv_usec + used.ru_stime.tv_usec) / 1e3, used.ru_maxrss);
    return 0;
}
