/* upgrade.c: one version of a plug-in takes the place of another a thousand times while three
 * threads send. No lookup finds neither. At the end what is kept takes the last version out. */
#include <msg_runtime.h>
#include <stdatomic.h>
#include <stdio.h>
#include <stdlib.h>
#include <string.h>

enum { SQUARE, TILE, AREA = 1, EDGE, OWN = 1, FIRST, SECOND, TIMES = 1000, THREADS = 3, MOST = 16 };
static msg_runtime runtime = MSG_RUNTIME_INIT;
static pthread_mutex_t lock = PTHREAD_MUTEX_INITIALIZER;
static atomic_bool is_over;
static atomic_int sending;

/* The second version has a method more. */
static const msg_change first[] = {
    {.kind = MSG_MAKES_CLASS, .number = TILE, .other = SQUARE},
    {.kind = MSG_ADDS, .number = TILE, .sel = AREA, .imp = FIRST},
    {.kind = MSG_COVERS, .number = SQUARE, .sel = AREA, .imp = FIRST},
};
static const msg_change second[] = {
    {.kind = MSG_MAKES_CLASS, .number = TILE, .other = SQUARE},
    {.kind = MSG_ADDS, .number = TILE, .sel = AREA, .imp = SECOND},
    {.kind = MSG_COVERS, .number = SQUARE, .sel = AREA, .imp = SECOND},
    {.kind = MSG_REPLACES, .number = SQUARE, .sel = EDGE, .imp = SECOND},
};
struct plug_in { msg_change back[MOST]; size_t count; };

static void must(uint32_t fault)
{
    if (fault) {
        fprintf(stderr, "fault %u\n", fault);
        exit(1);
    }
}

static uint32_t find(msg_sender *sender, uint32_t number, uint32_t sel)
{
    uint32_t imp;
    must(msg_find(&runtime, &lock, sender, number, false, sel, &imp));
    return imp;
}

static void *work(void *sender)
{
    size_t wrong = 0;
    sending++;
    while (!is_over) {
        uint32_t tile = find(sender, TILE, AREA), square = find(sender, SQUARE, AREA);
        wrong += tile != FIRST && tile != SECOND;
        wrong += square != FIRST && square != SECOND;
    }
    return (void *)wrong;
}

/* Takes out the version that is in, and brings these parts, as one list. What takes the old version
 * back would be the last `old` changes of the way back. So those before take these parts out. */
static void upgrade(struct plug_in *it, const msg_change *parts, size_t count)
{
    msg_change list[MOST];
    size_t old = 0, undone, place;
    memcpy(list, it->back, it->count * sizeof *list);
    memcpy(list + it->count, parts, count * sizeof *list);
    pthread_mutex_lock(&lock);
    /* without room it makes nothing, and tells how many there would be */
    uint32_t fault =
        msg_change_all_with_undo(&runtime, it->back, it->count, it->back, 0, &old, &place);
    if (fault != MSG_NO_ROOM) must(fault);
    must(msg_change_all_with_undo(&runtime, list, it->count + count, it->back, MOST, &undone,
                                  &place));
    pthread_mutex_unlock(&lock);
    it->count = undone - old;
}

static void show(msg_sender *sender)
{
    printf("a tile's area is %u, a square's %u, its edge %u\n", find(sender, TILE, AREA),
           find(sender, SQUARE, AREA), find(sender, SQUARE, EDGE));
}

int main(void)
{
    static struct { _Alignas(64) msg_sender sender; } seats[THREADS]; /* zero bytes are closed */
    static struct plug_in it;
    pthread_t threads[THREADS];
    size_t wrong = 0;
    must(msg_open(&runtime, NULL));
    must(msg_make_root_class(&runtime, SQUARE));
    must(msg_add(&runtime, SQUARE, false, AREA, OWN));
    must(msg_add(&runtime, SQUARE, false, EDGE, OWN));
    for (int i = 0; i < THREADS; i++) must(msg_sender_open(&runtime, &seats[i].sender));
    show(&seats[0].sender);
    upgrade(&it, first, sizeof first / sizeof *first);
    show(&seats[0].sender);
    for (int i = 0; i < THREADS; i++) pthread_create(&threads[i], NULL, work, &seats[i].sender);
    while (sending < THREADS) {}
    for (int i = 0; i < TIMES; i++) {
        upgrade(&it, second, sizeof second / sizeof *second);
        if (i < TIMES - 1) upgrade(&it, first, sizeof first / sizeof *first);
    }
    is_over = true;
    for (int i = 0; i < THREADS; i++) {
        void *more;
        pthread_join(threads[i], &more);
        wrong += (size_t)more;
    }
    show(&seats[0].sender);
    upgrade(&it, second, 0);
    show(&seats[0].sender);
    for (int i = 0; i < THREADS; i++) must(msg_sender_close(&runtime, &seats[i].sender));
    printf("%d times beside %d threads: %zu wrong answers\n", TIMES, THREADS, wrong);
    msg_close(&runtime);
    return wrong != 0;
}
