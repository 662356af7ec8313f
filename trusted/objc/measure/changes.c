/* changes COUNT: so many changes, each with a send that sees it, by threads that come and go;
 * for a memory checker. Prints the most memory that was resident, in KiB. */
#include "../tests/modules.h"
#include <pthread.h>
#include <stdlib.h>
#include <sys/resource.h>

enum { A_THREAD = 1000 };

static SEL names[2];
static id object;

static void *work(void *unused)
{
    (void)unused;
    for (int i = 0; i < A_THREAD; i++) {
        if (i % 10) class_replaceMethod(&root, names[i & 1], i & 2 ? one : two, "@16@0:8");
        else
            method_exchangeImplementations(class_getInstanceMethod(&root, names[0]),
                                           class_getInstanceMethod(&root, names[1]));
        if (send(object, names[i & 1]) !=
            (long)class_getMethodImplementation(&root, names[i & 1])(object, names[i & 1]))
            abort();
    }
    return NULL;
}

int main(int count, char **words)
{
    take();
    names[0] = sel_registerName("one");
    names[1] = sel_registerName("two");
    object = class_createInstance(&child, 0);
    for (int i = 0; i < (count > 1 ? atoi(words[1]) : 1000); i += A_THREAD) {
        pthread_t thread;
        pthread_create(&thread, NULL, work, NULL);
        pthread_join(thread, NULL);
    }
    struct rusage used;
    getrusage(RUSAGE_SELF, &used);
    printf("%ld\n", used.ru_maxrss);
    object_dispose(object);
    return 0;
}
