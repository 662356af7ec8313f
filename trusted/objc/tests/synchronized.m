/* @synchronized: one thread at a time in it, entered twice by one, left by an exception, and of
 * nil; of many objects at once, and of many after each other, for which no memory stays. */
#include "roots.h"
#include <pthread.h>
#include <malloc.h>
#include <stdio.h>

@interface Counter : Object { @public long count; }
- (void)count;
@end
@implementation Counter
- (void)count
{
    @synchronized(self) {
        @synchronized(self) {
            long seen = count;
            count = seen + 1;
        }
    }
}
@end

static void *work(void *counter)
{
    for (int i = 0; i < 50000; i++) [(Counter *)counter count];
    return NULL;
}

static int leave(Counter *counter)
{
    @try {
        @synchronized(counter) { @throw counter; }
    } @catch (id any) { return any == counter; }
    return 0;
}

static void *enter(void *counter)
{
    long code = objc_sync_enter(counter);
    return (void *)(code || objc_sync_exit(counter));
}

#ifdef SANITIZED_thread
/* A mutex of the shim locks one object after another, so their order says nothing. */
const char *__tsan_default_options(void) { return "detect_deadlocks=0"; }
#endif

enum { MANY = 40, TURNS = 4, SOME = 10000 };

/* Nothing is asked of what is locked, so these are addresses alone. */
static id address(size_t number) { return (id)(256 * number); }

/* Left in the order in which they were entered, or the other way about. */
static int enter_many(size_t from)
{
    int failed = 0;
    for (size_t i = 0; i < MANY; i++) failed += objc_sync_enter(address(from + i)) != 0;
    for (size_t i = 0; i < MANY; i++)
        failed += objc_sync_exit(address(from + (from % 2 ? i : MANY - 1 - i))) != 0;
    for (size_t i = 0; i < MANY; i++) failed += objc_sync_exit(address(from + i)) == 0;
    return failed;
}

static void tell_many(void)
{
    int failed = 0;
    for (size_t i = 1; i < TURNS; i++) failed += enter_many(i);
    size_t before = mallinfo2().uordblks;
    for (size_t i = TURNS; i < SOME; i++) failed += enter_many(i);
    size_t after = mallinfo2().uordblks;
    printf("many: failed %d, more memory %d\n", failed, after > before + SOME);
}

int main(void)
{
    Counter *counter = (Counter *)class_createInstance(objc_getClass("Counter"), 0);
    pthread_t threads[4];
    for (int i = 0; i < 4; i++) pthread_create(&threads[i], NULL, work, counter);
    for (int i = 0; i < 4; i++) pthread_join(threads[i], NULL);
    printf("counted %ld\n", counter->count);
    printf("left by an exception: %d\n", leave(counter));
    void *failed;
    pthread_create(threads, NULL, enter, counter);
    pthread_join(threads[0], &failed);
    printf("free for others: %d\n", !failed);
    printf("nil %d %d, not held %d\n", objc_sync_enter(nil), objc_sync_exit(nil),
           objc_sync_exit(counter));
    pthread_create(threads, NULL, enter, nil);
    pthread_join(threads[0], &failed);
    printf("nil for others: %d\n", !failed);
    tell_many();
    object_dispose(counter);
    return 0;
}
