/* Copies of an object beside a thread that sets its class to a larger one and back, as observing a
 * key does: each copy has the room of the class that it is of. */
#include "places.h"
#include <malloc.h>
#include <pthread.h>
#include <stdlib.h>

enum { TURNS = 200, LARGE = 4096 };

static id object;
static Class small, large;
static long over;

static void *flip(void *none)
{
    while (!get(&over)) {
        object_setClass(object, large);
        object_setClass(object, small);
    }
    return none;
}

int main(void)
{
    long wrong = 0, of[2] = {0, 0};
    pthread_t thread;
    take();
    small = &child;
    large = objc_allocateClassPair(&child, "Large", 0);
    class_addIvar(large, "room", LARGE, 0, "[4096c]");
    objc_registerClassPair(large);
    object = class_createInstance(large, 0); /* it has the room of the larger */
    SEL first = sel_registerName("one");
    pthread_create(&thread, NULL, flip, NULL);
    for (double until = now() + 1; now() < until || ((!of[0] || !of[1]) && now() < until + 100);)
        for (int i = 0; i < TURNS; i++) {
            id copy = object_copy(object, 0);
            of[copy->isa == large]++;
            wrong += malloc_usable_size(copy) < class_getInstanceSize(copy->isa);
            wrong += send(object, first) != 11 || send(copy, first) != 11;
            free(copy);
        }
    set(&over, 1);
    pthread_join(thread, NULL);
    printf("of both %d, wrong %ld\n", of[0] && of[1], wrong);
    free(object);
    return 0;
}
