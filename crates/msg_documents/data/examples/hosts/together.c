/* together.c: four threads send while three methods of two classes are swapped as one, a thousand
 * times */
#include <msg_runtime.h>
#include <stdatomic.h>
#include <stdio.h>
#include <stdlib.h>

enum { CLOCK, STORE, NOW = 1, WRITTEN, NAME, TRUE_ONES = 1, FAKES = 4, SWAPS = 1001, THREADS = 4 };
static msg_runtime runtime = MSG_RUNTIME_INIT;
static pthread_mutex_t lock = PTHREAD_MUTEX_INITIALIZER;
static atomic_bool is_over;
static atomic_int sending;

static void must(uint32_t fault)
{
    if (!fault) return;
    fprintf(stderr, "%s\n", msg_fault_text(fault));
    exit(1);
}

/* All three, or none: then the place of the one that is refused is written. */
static uint32_t swap(uint32_t imps, uint32_t last_kind, size_t *place)
{
    const msg_change changes[] = {
        {.kind = MSG_REPLACES, .number = CLOCK, .sel = NOW, .imp = imps},
        {.kind = MSG_REPLACES, .number = STORE, .sel = WRITTEN, .imp = imps + 1},
        {.kind = last_kind, .number = STORE, .sel = NAME, .imp = imps + 2},
    };
    pthread_mutex_lock(&lock);
    uint32_t fault = msg_change_all(&runtime, changes, 3, place);
    pthread_mutex_unlock(&lock);
    return fault;
}

static bool is_fake(msg_sender *sender, uint32_t number, uint32_t sel)
{
    uint32_t imp;
    must(msg_find(&runtime, &lock, sender, number, false, sel, &imp));
    return imp >= FAKES;
}

/* How many of the three are fakes; or 0 where a swap came between two lookups, as it may. It never
 * comes into one. */
static int fakes(msg_sender *sender)
{
    uint64_t before, after;
    must(msg_refresh(sender, &before));
    int count = is_fake(sender, CLOCK, NOW) + is_fake(sender, STORE, WRITTEN);
    count += is_fake(sender, STORE, NAME);
    must(msg_refresh(sender, &after));
    return before == after ? count : 0;
}

static void *work(void *sender)
{
    size_t wrong = fakes(sender) != 0;
    sending++;
    while (!is_over) wrong += fakes(sender) % 3 != 0;
    wrong += fakes(sender) != 3;                             /* the last swap had returned */
    return (void *)wrong;
}

int main(void)
{
    static struct { _Alignas(64) msg_sender sender; } seats[THREADS];
    pthread_t threads[THREADS];
    size_t place, wrong = 0;
    must(msg_open(&runtime, NULL));
    must(msg_make_root_class(&runtime, CLOCK));
    must(msg_make_root_class(&runtime, STORE));
    must(swap(TRUE_ONES, MSG_ADDS, &place));
    for (int i = 0; i < THREADS; i++) must(msg_sender_open(&runtime, &seats[i].sender));
    for (int i = 0; i < THREADS; i++) pthread_create(&threads[i], NULL, work, &seats[i].sender);
    while (sending < THREADS) {}
    for (int i = 0; i < SWAPS; i++) must(swap(i % 2 ? TRUE_ONES : FAKES, MSG_REPLACES, &place));
    is_over = true;
    for (int i = 0; i < THREADS; i++) {
        void *more;
        pthread_join(threads[i], &more);
        wrong += (size_t)more;
    }
    printf("%d swaps of three methods beside %d threads: ", SWAPS, THREADS);
    printf("%zu wrong answers\n", wrong);

    uint32_t fault = swap(TRUE_ONES, MSG_ADDS, &place);
    printf("part %zu is refused: %s\n", place, msg_fault_text(fault));
    printf("%d of 3 are fakes still\n", fakes(&seats[0].sender));
    for (int i = 0; i < THREADS; i++) must(msg_sender_close(&runtime, &seats[i].sender));
    return 0;
}
