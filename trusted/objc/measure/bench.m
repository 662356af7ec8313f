/* bench LOAD THREADS: for each line of standard input a window, and how many nanoseconds one of
 * its steps took on its slowest thread; so two programs take turns. bench LOAD THREADS WINDOWS:
 * so many windows at once, of which nothing is told, for a count of instructions. LOAD: own,
 * inherited, mixed (objc_msg_lookup); many (14,000 messages in a random order, of most of which a
 * sender of the shim has notes); neighbours (two in turns, of one place: one is found by the first
 * note there, one by the second); class (a send to a class by name); responds, lacks
 * (class_respondsToSelector that answers YES, NO); forwarded (objc_msg_lookup of what no class has,
 * which a hook answers); on one thread, class_replaceMethod with the next send: replace, in a class
 * without subclasses, and replace_above, in one that has two. */
#include "../tests/calls.h"
#include <pthread.h>
#include <stdbool.h>
#include <stdio.h>
#include <stdlib.h>
#include <string.h>
#include <time.h>

enum {
    STEPS = 100000,
    REPLACEMENTS = 2000,
    MOST_THREADS = 16,
    OBJECTS = 64,
    CLASSES = 8,
    ORDER = 1024,
    MANY_SELS = 96,
    MANY = 14000,
    PLACES = 8192
};

__attribute__((objc_root_class)) @interface Level0 { Class isa; }
+ (void)initialize;
+ (long)kind;
- (long)own;
- (long)inherited;
- (long)third;
- (long)fourth;
@end
@implementation Level0
+ (void)initialize {}
+ (long)kind { return 1; }
- (long)own { return 1; }
- (long)inherited { return 2; }
- (long)third { return 3; }
- (long)fourth { return 4; }
@end
#define LEVEL(name, above, method) \
    @interface name : above @end \
    @implementation name - (long)method { return 5; } @end
LEVEL(Level1, Level0, third)
LEVEL(Level2, Level1, fourth)
LEVEL(Level3, Level2, own)
LEVEL(Level4, Level3, third)
LEVEL(Level5, Level4, own)
LEVEL(Level6, Level1, own)
LEVEL(Level7, Level2, fourth)

static id objects[OBJECTS];
static SEL sels[4], nowhere;
static struct pair { id object; SEL sel; } order[ORDER], many[MANY], neighbours[2];
static double times[MOST_THREADS];
static bool over;
static pthread_barrier_t barrier;
static const char *load;

static double now(void)
{
    struct timespec at;
    clock_gettime(CLOCK_MONOTONIC, &at);
    return (double)at.tv_sec * 1e9 + (double)at.tv_nsec;
}

static uintptr_t look(id object, SEL sel)
{
    uintptr_t sum = 0;
    for (int i = 0; i < STEPS; i++) sum += (uintptr_t)objc_msg_lookup(object, sel);
    return sum;
}

static inline uintptr_t look_in_turns(const struct pair *pairs, int count)
{
    uintptr_t sum = 0;
    for (int i = 0; i < STEPS; i++)
        sum += (uintptr_t)objc_msg_lookup(pairs[i % count].object, pairs[i % count].sel);
    return sum;
}

static uintptr_t send_class(void)
{
    uintptr_t sum = 0;
    for (int i = 0; i < STEPS; i++) sum += (uintptr_t)[Level3 kind];
    return sum;
}

static uintptr_t ask(Class class_, SEL sel)
{
    uintptr_t sum = 0;
    for (int i = 0; i < STEPS; i++) sum += class_respondsToSelector(class_, sel);
    return sum;
}

static long one(id self, SEL sel) { return 1; }
static long two(id self, SEL sel) { return 2; }

static uintptr_t replace(id object)
{
    uintptr_t wrong = 0;
    for (int i = 0; i < REPLACEMENTS; i++) {
        class_replaceMethod(object->isa, sels[0], (IMP)(i & 1 ? one : two), "l16@0:8");
        wrong += ((long (*)(id, SEL))objc_msg_lookup(object, sels[0]))(object, sels[0]) !=
                 (i & 1 ? 1 : 2);
    }
    if (wrong) abort();
    return wrong;
}

static uintptr_t step(void)
{
    id object = objects[3];
    if (!strcmp(load, "own")) return look(object, sels[0]);
    if (!strcmp(load, "inherited")) return look(object, sels[1]);
    if (!strcmp(load, "mixed")) return look_in_turns(order, ORDER);
    if (!strcmp(load, "many")) return look_in_turns(many, MANY);
    if (!strcmp(load, "neighbours")) return look_in_turns(neighbours, 2);
    if (!strcmp(load, "class")) return send_class();
    if (!strcmp(load, "responds")) return ask(object->isa, sels[0]);
    if (!strcmp(load, "lacks")) return ask(object->isa, nowhere);
    if (!strcmp(load, "forwarded")) return look(object, nowhere);
    return replace(strcmp(load, "replace") ? object : objects[5]);
}

/* What comes before a window wakes the thread, its processor and its caches. */
static void *work(void *number)
{
    uintptr_t sum = 0;
    for (;;) {
        pthread_barrier_wait(&barrier);
        if (over) return (void *)sum;
        sum += step();
        pthread_barrier_wait(&barrier);
        double begun = now();
        sum += step();
        times[(intptr_t)number] = now() - begun;
        pthread_barrier_wait(&barrier);
    }
}

static double window(int threads)
{
    double slowest = 0;
    for (int i = 0; i < 3; i++) pthread_barrier_wait(&barrier);
    for (int i = 0; i < threads; i++)
        if (times[i] > slowest) slowest = times[i];
    return slowest / (strncmp(load, "replace", 7) ? STEPS : REPLACEMENTS);
}

static IMP by_hook(id receiver, SEL sel) { return (IMP)one; }

static void prepare(void)
{
    uint32_t drawn = 1;
    __objc_msg_forward2 = by_hook;
    nowhere = sel_registerName("nowhere");
    sels[0] = @selector(own);
    sels[1] = @selector(inherited);
    sels[2] = @selector(third);
    sels[3] = @selector(fourth);
    for (int i = 0; i < OBJECTS; i++) {
        char name[8];
        snprintf(name, sizeof name, "Level%d", i % CLASSES);
        objects[i] = class_createInstance(objc_getClass(name), 0);
    }
    for (int i = 0; i < ORDER; i++) {
        drawn = drawn * 1664525 + 1013904223;
        order[i].object = objects[drawn >> 26];
        order[i].sel = sels[(drawn >> 20) & 3];
    }
}

/* Numbers of selectors follow one another as they are registered, and the place of notes is theirs
 * modulo how many places there are. */
static void prepare_neighbours(void)
{
    SEL sel = NULL;
    for (int i = 0; i <= PLACES; i++) {
        char name[16];
        snprintf(name, sizeof name, "neighbour%d", i);
        sel = sel_registerName(name);
        if (i % PLACES) continue;
        class_addMethod(objects[3]->isa, sel, (IMP)one, "l16@0:8");
        neighbours[i / PLACES] = (struct pair){objects[3], sel};
    }
}

/* How many messages a class is sent: for the caches of all there are arrays. */
static int many_of(int class_) { return class_ < 120 ? 48 : class_ < 180 ? 96 : 80; }

/* Each pair once, shuffled. */
static void prepare_many(void)
{
    uint64_t drawn = 1;
    Class class_ = NULL;
    SEL all[MANY_SELS];
    for (int i = 0; i < MANY_SELS; i++) {
        char name[16];
        snprintf(name, sizeof name, "many%d", i);
        all[i] = sel_registerName(name);
        class_addMethod(objc_getClass("Level0"), all[i], (IMP)one, "l16@0:8");
    }
    for (int i = 0, number = -1, sel = 0, end = 0; i < MANY; i++, sel++) {
        if (sel == end) {
            char name[16];
            snprintf(name, sizeof name, "Many%d", ++number);
            class_ = objc_allocateClassPair(objc_getClass("Level0"), name, 0);
            objc_registerClassPair(class_);
            end = many_of(number);
            sel = 0;
        }
        drawn = drawn * 6364136223846793005 + 1442695040888963407;
        int at = (int)((drawn >> 33) % (uint64_t)(i + 1));
        many[i] = many[at];
        many[at] = (struct pair){class_createInstance(class_, 0), all[sel]};
    }
}

int main(int count, char **words)
{
    int threads = count > 2 ? atoi(words[2]) : 1;
    int windows = count > 3 ? atoi(words[3]) : -1;
    pthread_t ids[MOST_THREADS];
    load = words[1];
    prepare();
    if (!strcmp(load, "many")) prepare_many();
    if (!strcmp(load, "neighbours")) prepare_neighbours();
    pthread_barrier_init(&barrier, NULL, (unsigned)threads + 1);
    for (intptr_t i = 0; i < threads; i++) pthread_create(&ids[i], NULL, work, (void *)i);
    while (windows > 0) window(threads), windows--;
    while (windows < 0 && getchar() != EOF) {
        printf("%.3f\n", window(threads));
        fflush(stdout);
    }
    over = true;
    pthread_barrier_wait(&barrier);
    for (int i = 0; i < threads; i++) pthread_join(ids[i], NULL);
    return 0;
}
