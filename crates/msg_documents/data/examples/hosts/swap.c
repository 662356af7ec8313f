/* swap.c: three threads send while a method is swapped a thousand times */
#include <msg_runtime.h>
#include <stdatomic.h>
#include <stdio.h>
#include <stdlib.h>

enum { SQUARE, AREA = 1, OLD = 1, NEW, SWAPS = 1001, THREADS = 3 };
static msg_runtime runtime = MSG_RUNTIME_INIT;
static pthread_mutex_t lock = PTHREAD_MUTEX_INITIALIZER;
static atomic_bool is_over;
static atomic_int sending;

static void must(uint32_t fault)
{
    if (fault) {
        fprintf(stderr, "fault %u\n", fault);
        exit(1);
    }
}

static uint32_t area(msg_sender *sender)
{
    uint32_t imp; /* by each swap that has returned */
    must(msg_find(&runtime, &lock, sender, SQUARE, false, AREA, &imp));
    return imp;
}

static void *work(void *sender)
{
    size_t wrong = 0;
    sending++;
    while (!is_over) {
        uint32_t imp = area(sender);
        wrong += imp != OLD && imp != NEW;
    }
    wrong += area(sender) != NEW;                            /* the last swap had returned */
    return (void *)wrong;
}

int main(void)
{
    static struct { _Alignas(64) msg_sender sender; } seats[THREADS]; /* zero bytes are closed */
    pthread_t threads[THREADS];
    must(msg_open(&runtime, NULL));
    must(msg_make_root_class(&runtime, SQUARE));
    must(msg_add(&runtime, SQUARE, false, AREA, OLD));
    for (int i = 0; i < THREADS; i++) must(msg_sender_open(&runtime, &seats[i].sender));
    for (int i = 0; i < THREADS; i++) pthread_create(&threads[i], NULL, work, &seats[i].sender);
    while (sending < THREADS) {}
    for (int i = 0; i < SWAPS; i++) {
        pthread_mutex_lock(&lock);
        must(msg_replace(&runtime, SQUARE, false, AREA, i % 2 ? OLD : NEW));
        pthread_mutex_unlock(&lock);
    }
    is_over = true;
    size_t wrong = 0;
    for (int i = 0; i < THREADS; i++) {
        void *more;
        pthread_join(threads[i], &more);
        wrong += (size_t)more;
        must(msg_sender_close(&runtime, &seats[i].sender));
    }
    printf("%d swaps beside %d threads: %zu wrong answers\n", SWAPS, THREADS, wrong);
    return 0;
}
