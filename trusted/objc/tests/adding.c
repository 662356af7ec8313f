/* 5,000 methods of new names are added beside senders. No send finds anything wrong. */
#include "modules.h"
#include <pthread.h>
#include <sched.h>
#include <stdatomic.h>

static atomic_int stop, sends;
static SEL first;

static void *work(void *object)
{
    size_t wrong = 0;
    while (!atomic_load(&stop))
        if (send(object, first) != 11) wrong++;
        else sends++;
    return (void *)wrong;
}

int main(void)
{
    take();
    first = sel_registerName("one");
    id object = class_createInstance(objc_getClass("Child"), 0);
    pthread_t threads[2];
    size_t wrong = 0, missing = 0;
    for (int i = 0; i < 2; i++) pthread_create(&threads[i], NULL, work, object);
    for (int i = 0; i < 5000; i++) {
        char name[16];
        snprintf(name, sizeof name, "added%d", i);
        SEL sel = sel_registerName(name);
        if (!class_addMethod(&root, sel, two, "@16@0:8") || send(object, sel) != 12) missing++;
        for (int is = sends; i % 100 == 0 && sends == is;) sched_yield();
    }
    atomic_store(&stop, 1);
    for (int i = 0; i < 2; i++) {
        void *answer;
        pthread_join(threads[i], &answer);
        wrong += (size_t)answer;
    }
    printf("wrong %zu, missing %zu\n", wrong, missing);
    printf("added twice: %d\n", class_addMethod(&root, first, two, "@16@0:8"));
    object_dispose(object);
    return 0;
}
