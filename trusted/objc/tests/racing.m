/* Threads that send what no class has, which a hook answers, and at the same time what a class
 * resolves: for a sanitizer, and for the answers. */
#include "roots.h"
#include <pthread.h>
#include <stdio.h>

enum { THREADS = 4, TURNS = 2000 };

__attribute__((objc_root_class)) @interface Base { Class isa; }
+ (int)value;
@end
@interface Base (Undefined)
+ (int)nowhere;
+ (int)late;
@end

static int by_hook(id self, SEL sel) { return 9; }
static int late(id self, SEL sel) { return 4; }
static IMP hook(id self, SEL sel) { return (IMP)by_hook; }

@implementation Base
+ (int)value { return 1; }
+ (BOOL)resolveClassMethod:(SEL)sel
{
    if (!sel_isEqual(sel, @selector(late))) return 0;
    class_addMethod(objc_getMetaClass("Base"), sel, (IMP)late,
                    "i16@0:8"); /* unless another thread was here before */
    return 1;
}
@end

static int wrong;
static pthread_barrier_t together;

static void *run(void *first)
{
    pthread_barrier_wait(&together);
    if (first && [Base late] != 4) __atomic_fetch_add(&wrong, 1, __ATOMIC_SEQ_CST);
    for (int i = 0; i < TURNS; i++) {
        int right = [Base nowhere] == 9 && [Base value] == 1;
        right = right && !class_respondsToSelector(objc_getMetaClass("Base"), @selector(nowhere));
        if (!right) __atomic_fetch_add(&wrong, 1, __ATOMIC_SEQ_CST);
    }
    if ([Base late] != 4) __atomic_fetch_add(&wrong, 1, __ATOMIC_SEQ_CST);
    return NULL;
}

int main(void)
{
    pthread_t threads[THREADS];
    __objc_msg_forward2 = hook;
    pthread_barrier_init(&together, NULL, THREADS);
    for (int i = 0; i < THREADS; i++)
        pthread_create(&threads[i], NULL, run, i == 2 ? &wrong : NULL);
    for (int i = 0; i < THREADS; i++) pthread_join(threads[i], NULL);
    printf("wrong %d\n", wrong);
    return 0;
}
