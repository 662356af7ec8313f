/* process.c: three threads send while a method is swapped, without a lock or senders of the
 * host's */
#include <msg_process.h>
#include <stdio.h>
#include <stdlib.h>

enum { SQUARE, AREA = 1, FIRST = 1, SWAPS = 1001, THREADS = 3 };

static void must(uint32_t fault)
{
    if (!fault) return;
    fprintf(stderr, "%s\n", msg_fault_text(fault));
    exit(1);
}

/* until it finds the last implementation; each is to be no older than the one before */
static void *work(void *wrong)
{
    for (uint32_t imp = FIRST, before = FIRST; imp < FIRST + SWAPS; before = imp) {
        must(msg_process_find(SQUARE, false, AREA, &imp));
        if (imp < before) ++*(size_t *)wrong;
    }
    return NULL;
}

int main(void)
{
    size_t wrong[THREADS] = {0, 0, 0};
    pthread_t threads[THREADS];
    msg_runtime *runtime;
    must(msg_process_start(NULL));
    for (uint32_t i = 0; i <= SWAPS; i++) {
        must(msg_process_lock(&runtime));
        if (i == 0) must(msg_make_root_class(runtime, SQUARE));
        must(msg_replace(runtime, SQUARE, false, AREA, FIRST + i));
        msg_process_unlock();
        if (i < THREADS) pthread_create(&threads[i], NULL, work, &wrong[i]);
    }
    for (int i = 0; i < THREADS; i++) pthread_join(threads[i], NULL);
    printf("%d swaps beside %d threads: %zu wrong answers\n", SWAPS, THREADS,
           wrong[0] + wrong[1] + wrong[2]);
    return 0;
}
