/* test_tool.m: a test tool puts fakes in the place of three methods of two classes, all at once, while four threads send; and takes them back. */
#include <objc/runtime.h>
#include <msg_objc.h>
#include <pthread.h>
#include <stdio.h>

__attribute__((objc_root_class)) @interface Clock { Class isa; }
+ (long)now;
@end
@implementation Clock
+ (long)now { return 1700000000; }
@end

__attribute__((objc_root_class)) @interface Store { Class isa; }
+ (long)written;
+ (const char *)name;
@end
@implementation Store
+ (long)written { return 1699999999; }
+ (const char *)name { return "disk"; }
@end

static long fake_now(id self, SEL sel) { return 1000; }
static long fake_written(id self, SEL sel) { return 999; }
static const char *fake_name(id self, SEL sel) { return "memory"; }

enum { THREADS = 4, TIMES = 50 };
static long fake;                                /* what the clock says after the swap: the true time or the fake's */
static int is_over;
static pthread_barrier_t sending;

/* The program under test. It would be wrong to see the clock as it is after the swap, and then the store as before. */
static void *program(void *none)
{
    long half = 0, sends = 0;
    while (!__atomic_load_n(&is_over, __ATOMIC_ACQUIRE)) {
        long now = [Clock now], written = [Store written];
        half += (now == 1000) == fake && (written == 999) != fake;
        if (++sends == 100) pthread_barrier_wait(&sending);
    }
    return (void *)half;
}

/* Swaps beside the threads: how often one saw half of it, or -1 where it was refused. */
static long swap(struct objc_method_swap *rows, size_t count)
{
    pthread_t threads[THREADS];
    int i;
    fake = rows[0].imp == (IMP)fake_now;
    is_over = 0;
    for (i = 0; i < THREADS; i++) pthread_create(&threads[i], NULL, program, NULL);
    pthread_barrier_wait(&sending);
    size_t made = objc_replace_methods(rows, count);
    for (i = 0; i < 100; i++) [Store name];
    __atomic_store_n(&is_over, 1, __ATOMIC_RELEASE);
    long half = 0;
    for (i = 0; i < THREADS; i++) {
        void *one;
        pthread_join(threads[i], &one);
        half += (long)one;
    }
    return made == count ? half : -1;
}

static void show(const char *when) { printf("%s: %ld, %ld, %s\n", when, [Clock now], [Store written], [Store name]); }

int main(void)
{
    Class clock = objc_getMetaClass("Clock"), store = objc_getMetaClass("Store"); /* of class methods: the metaclass */
    struct objc_method_swap rows[] = {
        {clock, @selector(now), (IMP)fake_now, NULL},        /* the types are the method's that is there */
        {store, @selector(written), (IMP)fake_written, NULL},
        {store, @selector(name), (IMP)fake_name, NULL},
    };
    int i;
    pthread_barrier_init(&sending, NULL, THREADS + 1);
    show("as it is");
    long half = swap(rows, 3);
    show("with fakes");
    half += swap(rows, 3);                                    /* the rows now have what was there before */
    show("taken back");
    for (i = 0; i < 2 * TIMES; i++) half += swap(rows, 3);
    printf("half of a swap was seen %ld times\n", half);

    struct objc_method_swap refused[] = {{clock, @selector(now), (IMP)fake_now, NULL}, {store, @selector(nobodys), (IMP)fake_now, NULL}};
    printf("row %zu is refused\n", objc_replace_methods(refused, 2)); /* it has no types, and nobody has the method */
    show("and so nothing is changed");
    return 0;
}
