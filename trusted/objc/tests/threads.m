/* Threads by a message, locks that one thread holds twice, a condition for one and for all, a
 * thread's own value, its end, and what is refused. */
#include "roots.h"
#include <stdio.h>

static objc_mutex_t lock;
static objc_condition_t changed;
static int done, total;

@interface Worker : Object
- (id)work:(id)step;
@end
@implementation Worker
- (id)work:(id)step
{
    objc_thread_set_data(step);
    for (int i = 0; i < 1000; i++) {
        objc_mutex_lock(lock);
        total += objc_thread_get_data() == step;
        objc_mutex_unlock(lock);
    }
    objc_mutex_lock(lock);
    done++;
    objc_condition_signal(changed);
    objc_mutex_unlock(lock);
    return nil;
}
@end

/* Threads that wait for all to be woken at once, and end in the middle of a method. */
static int waits, woken;
@interface Waiter : Object
- (void)wait;
@end
@implementation Waiter
- (void)wait
{
    objc_mutex_lock(lock);
    waits++;
    while (!woken) objc_condition_wait(changed, lock);
    waits--;
    objc_mutex_unlock(lock);
    objc_thread_exit();
    printf("not reached\n");
}
@end

/* The lock is held then. */
static void until_wait(int many)
{
    for (objc_mutex_lock(lock); waits != many; objc_mutex_lock(lock)) {
        objc_mutex_unlock(lock);
        objc_thread_yield();
    }
}

static void wake_all(void)
{
    Waiter *waiter = (Waiter *)class_createInstance(objc_getClass("Waiter"), 0);
    for (int i = 0; i < 3; i++) objc_thread_detach(@selector(wait), waiter, nil);
    until_wait(3);
    woken = 1;
    printf("all woken %d", objc_condition_broadcast(changed) + objc_condition_signal(changed));
    objc_mutex_unlock(lock);
    until_wait(0);
    printf(" %d\n", objc_mutex_unlock(lock));
    object_dispose(waiter);
}

static void refuse(void)
{
    printf("not held: %d, ", objc_condition_wait(changed, lock));
    objc_mutex_lock(lock);
    objc_mutex_lock(lock);
    printf("held twice: %d, none: %d %d %d %d\n", objc_condition_wait(changed, lock),
           objc_condition_wait(NULL, lock), objc_condition_signal(NULL),
           objc_condition_broadcast(NULL), objc_condition_deallocate(NULL));
    objc_mutex_unlock(lock);
    objc_mutex_unlock(lock);
    printf("no lock: %d %d\n", objc_mutex_lock(NULL), objc_mutex_unlock(NULL));
}

static objc_thread_t caller;

static void at_first(void)
{
    printf("the first thread%s\n", objc_thread_id() == caller ? " isn't a new one" : "");
}

int main(void)
{
    lock = objc_mutex_allocate();
    changed = objc_condition_allocate();
    Worker *worker = (Worker *)class_createInstance(objc_getClass("Worker"), 0);
    caller = objc_thread_id();
    objc_set_thread_callback(at_first);
    for (long i = 1; i <= 3; i++) objc_thread_detach(@selector(work:), worker, (id)i);
    objc_mutex_lock(lock);
    while (done < 3) objc_condition_wait(changed, lock);
    printf("total %d, own value %d\n", total, objc_thread_get_data() != NULL);
    objc_mutex_unlock(lock);
    wake_all();
    refuse();
    objc_thread_yield();
    printf("data %d, priority %d\n", objc_thread_set_data(worker),
           objc_thread_set_priority(objc_thread_get_priority()));
    objc_mutex_lock(lock);
    printf("held %d, ", objc_mutex_trylock(lock));
    printf("%d, ", objc_mutex_unlock(lock));
    printf("%d, ", objc_mutex_unlock(lock));
    printf("not held %d\n", objc_mutex_unlock(lock));
    printf("given back %d %d\n", objc_condition_deallocate(changed), objc_mutex_deallocate(lock));
    changed = NULL;
    lock = NULL;
    object_dispose(worker);
    return 0;
}
