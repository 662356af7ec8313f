/* Atomic properties: a -retain that reads another one, and threads that read and write one
 * beside each other. */
#include "roots.h"
#include <pthread.h>
#include <stdio.h>

enum { THREADS = 3, TURNS = 3000 };

__attribute__((objc_root_class)) @interface Base { Class isa; int count; }
- (id)retain;
- (id)autorelease;
- (void)release;
@end
@implementation Base
- (id)retain { __atomic_fetch_add(&count, 1, __ATOMIC_SEQ_CST); return self; }
- (id)autorelease { return self; }
- (void)release { __atomic_fetch_sub(&count, 1, __ATOMIC_SEQ_CST); }
- (int)count { return __atomic_load_n(&count, __ATOMIC_SEQ_CST); }
@end

struct wide { long first, second; };

@interface Value : Base { id name; }
@property(retain) id name;
@end
@implementation Value
@synthesize name;
- (id)retain { [self name]; return [super retain]; }
@end

@interface Holder : Base { id value; struct wide wide; }
@property(retain) id value;
@property struct wide wide;
@end
@implementation Holder
@synthesize value, wide;
@end

static Holder *holder;
static Value *values[64];
static int wrong;

static void *turn(void *given)
{
    for (int i = 0; i < TURNS; i++) {
        holder.value = values[(i + (long)given) % 2];
        id value = holder.value;
        if (value != values[0] && value != values[1])
            __atomic_fetch_add(&wrong, 1, __ATOMIC_SEQ_CST);
        holder.wide = (struct wide){i, -i};
        struct wide seen = holder.wide;
        if (seen.first + seen.second) __atomic_fetch_add(&wrong, 1, __ATOMIC_SEQ_CST);
    }
    return NULL;
}

int main(void)
{
    pthread_t threads[THREADS];
    holder = (Holder *)class_createInstance(objc_getClass("Holder"), 0);
    for (int i = 0; i < 64; i++) { /* of many addresses: some have the holder's lock */
        values[i] = (Value *)class_createInstance(objc_getClass("Value"), i % 2 * 16);
        holder.value = values[i];
        if (holder.value != values[i]) wrong++;
    }
    holder.value = nil;
    printf("of itself: counted %d, wrong %d\n", [values[5] count], wrong);
    for (long i = 0; i < THREADS; i++) pthread_create(&threads[i], NULL, turn, (void *)i);
    for (int i = 0; i < THREADS; i++) pthread_join(threads[i], NULL);
    printf("beside each other: wrong %d\n", wrong);
    return 0;
}
