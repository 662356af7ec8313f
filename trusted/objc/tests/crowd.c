/* 1,100 threads at once, more than there are senders; then 300 one after the other, which give
 * theirs back. Methods are replaced meanwhile. */
#include "modules.h"
#include <pthread.h>
#include <stdatomic.h>
#include <unistd.h>

#ifdef SANITIZED /* under which a thread takes some fifty times as long */
enum { AFTER = 30, TURNS = 5, CHANGES = 100 };
#else
enum { AFTER = 300, TURNS = 100, CHANGES = 2000 };
#endif
enum { THREADS = 1100, STACK = 1 << 18 };

static SEL first;
static atomic_int begun, over;

static size_t sent(id object)
{
    size_t wrong = 0;
    for (int i = 0; i < TURNS; i++) {
        long answer = send(object, first);
        if (answer != 11 && answer != 12) wrong++;
    }
    return wrong;
}

/* None ends before all have sent. */
static void *work(void *object)
{
    size_t wrong = sent(object);
    begun++;
    while (!over) wrong += sent(object), usleep(20000);
    return (void *)(wrong + sent(object));
}

static void *work_alone(void *object) { return (void *)sent(object); }

int main(void)
{
    take();
    first = sel_registerName("one");
    id object = class_createInstance(&child, 0);
    static pthread_t threads[THREADS];
    pthread_attr_t small;
    size_t wrong = 0, none = 0;
    void *answer;
    pthread_attr_init(&small);
    pthread_attr_setstacksize(&small, STACK);
    for (int i = 0; i < THREADS; i++)
        none += pthread_create(&threads[i], &small, work, object) != 0;
    while (begun < THREADS) usleep(1000);
    for (int i = 0; i < CHANGES; i++)
        class_replaceMethod(&root, first, i & 1 ? one : two, "@16@0:8");
    over = 1;
    for (int i = 0; i < THREADS; i++) pthread_join(threads[i], &answer), wrong += (size_t)answer;
    for (int i = 0; i < AFTER; i++) {
        pthread_create(threads, NULL, work_alone, object);
        pthread_join(threads[0], &answer);
        wrong += (size_t)answer;
    }
    printf("wrong %zu, last %ld\n", wrong + none, send(object, first));
    object_dispose(object);
    return 0;
}
