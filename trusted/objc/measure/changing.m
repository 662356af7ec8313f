/* changing SENDERS MICROSECONDS MILLISECONDS: SENDERS threads look up 24 messages of each of 32
 * classes in a random order, for so many milliseconds. Meanwhile a method of one class after
 * another is replaced each so many microseconds, or none if that is 0. Says how many million
 * lookups they made a second, and how many changes there were. */
#include "../tests/calls.h"
#include <pthread.h>
#include <stdbool.h>
#include <stdio.h>
#include <stdlib.h>
#include <time.h>

enum { CLASSES = 32, MESSAGES = 24, SENDS = 128, MOST = 8 };

__attribute__((objc_root_class)) @interface Changing { Class isa; }
@end
@implementation Changing
+ (void)initialize {}
@end

static id objects[CLASSES];
static SEL sels[MESSAGES];
static bool is_over;
static long sent[MOST][16]; /* each on a cache line of its own */

static long one(id self, SEL sel) { return 1; }
static long two(id self, SEL sel) { return 2; }

static double now(void)
{
    struct timespec t;
    clock_gettime(CLOCK_MONOTONIC, &t);
    return (double)t.tv_sec * 1e6 + (double)t.tv_nsec / 1e3;
}

static void prepare(void)
{
    char name[32];
    for (int s = 0; s < MESSAGES; s++) {
        snprintf(name, sizeof name, "message%d", s);
        sels[s] = sel_registerName(name);
    }
    for (int c = 0; c < CLASSES; c++) {
        snprintf(name, sizeof name, "Changing%d", c);
        Class made = objc_allocateClassPair(objc_getClass("Changing"), name, 0);
        for (int s = 0; s < MESSAGES; s++) class_addMethod(made, sels[s], (IMP)one, "l16@0:8");
        objc_registerClassPair(made);
        objects[c] = class_createInstance(made, 0);
    }
}

static void *look(void *place)
{
    long *count = place;
    unsigned long random = 88172645463325252ul + (unsigned long)(uintptr_t)place;
    while (!__atomic_load_n(&is_over, __ATOMIC_RELAXED)) {
        for (int i = 0; i < SENDS; i++) {
            random ^= random << 13;
            random ^= random >> 7;
            random ^= random << 17;
            IMP imp = objc_msg_lookup(objects[random % CLASSES], sels[(random >> 8) % MESSAGES]);
            if (imp != (IMP)one && imp != (IMP)two) abort();
        }
        *count += SENDS;
    }
    return NULL;
}

int main(int count, char **words)
{
    pthread_t threads[MOST];
    if (count != 4 || atoi(words[1]) > MOST) return 2;
    int senders = atoi(words[1]);
    double each = atof(words[2]), took = atof(words[3]) * 1e3;
    long changes = 0, all = 0;
    prepare();
    for (int i = 0; i < senders; i++) pthread_create(&threads[i], NULL, look, sent[i]);
    double start = now(), next = start;
    for (double at = start; at < start + took; at = now()) {
        if (!each || at < next) continue;
        next += each;
        class_replaceMethod(*(Class *)objects[changes % CLASSES], sels[changes % MESSAGES],
                            changes & 1 ? (IMP)one : (IMP)two, "l16@0:8");
        changes++;
    }
    __atomic_store_n(&is_over, true, __ATOMIC_RELAXED);
    took = now() - start;
    for (int i = 0; i < senders; i++) {
        pthread_join(threads[i], NULL);
        all += sent[i][0];
    }
    printf("%.2f %ld\n", (double)all / took, changes);
    return 0;
}
