/* Threads whose last destructors of thread data send: what they leave behind doesn't grow, and
 * new threads still have a sender. */
#include "roots.h"
#include <malloc.h>
#include <pthread.h>
#include <stdio.h>

enum { AGAIN = 4, THREADS = 100, MOST_LEFT = 1 << 20 };

__attribute__((objc_root_class)) @interface Base { Class isa; }
+ (int)one;
@end
@implementation Base
+ (int)one { return 1; }
@end

static pthread_key_t key;
static int wrong;

static void at_end(void *left)
{
    if ([Base one] != 1) wrong++;
    if ((long)left > 1) pthread_setspecific(key, (void *)((long)left - 1));
}

static void *run(void *again)
{
    if ([Base one] != 1) wrong++;
    pthread_setspecific(key, again);
    return NULL;
}

int main(void)
{
    [Base one];
    pthread_key_create(&key, at_end);
    long before = 0, left;
    for (int i = 0; i < THREADS; i++) {
        pthread_t thread;
        pthread_create(&thread, NULL, run, (void *)(long)AGAIN);
        pthread_join(thread, NULL);
        if (i == 4) before = (long)mallinfo2().uordblks;
    }
    left = (long)mallinfo2().uordblks - before;
    printf("wrong %d, %s\n", wrong, left < MOST_LEFT ? "nothing is left" : "memory is left");
    return 0;
}
