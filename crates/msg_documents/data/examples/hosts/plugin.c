/* plugin.c: a plug-in comes and goes a thousand times while three threads send. It brings a class
 * below Square, and covers a method of Square itself. */
#include <msg_runtime.h>
#include <stdatomic.h>
#include <stdio.h>
#include <stdlib.h>

enum { SQUARE, TILE, AREA = 1, OWN = 1, BROUGHT, TIMES = 1000, THREADS = 3, PARTS = 3 };
static msg_runtime runtime = MSG_RUNTIME_INIT;
static pthread_mutex_t lock = PTHREAD_MUTEX_INITIALIZER;
static atomic_bool is_over;
static atomic_int sending;

static const msg_change plugin[PARTS] = {
    {.kind = MSG_MAKES_CLASS, .number = TILE, .other = SQUARE},
    {.kind = MSG_ADDS, .number = TILE, .sel = AREA, .imp = BROUGHT},
    {.kind = MSG_COVERS, .number = SQUARE, .sel = AREA, .imp = BROUGHT},
};

static void must(uint32_t fault)
{
    if (fault) {
        fprintf(stderr, "fault %u\n", fault);
        exit(1);
    }
}

static uint32_t area(msg_sender *sender, uint32_t number)
{
    uint32_t imp;
    must(msg_find(&runtime, &lock, sender, number, false, AREA, &imp));
    return imp;
}

/* With the plug-in both find its method; without it Square has its own, and there is no Tile. */
static void *work(void *sender)
{
    size_t wrong = 0;
    sending++;
    while (!is_over) {
        uint32_t tile = area(sender, TILE), square = area(sender, SQUARE);
        wrong += tile != 0 && tile != BROUGHT;
        wrong += square != OWN && square != BROUGHT;
    }
    wrong += area(sender, TILE) != 0 || area(sender, SQUARE) != OWN; /* it has gone */
    return (void *)wrong;
}

/* All of it as one, and what takes it away. */
static void come(msg_change *back, size_t *count)
{
    size_t place;
    pthread_mutex_lock(&lock);
    must(msg_change_all_with_undo(&runtime, plugin, PARTS, back, PARTS, count, &place));
    pthread_mutex_unlock(&lock);
}

static void go(const msg_change *back, size_t count)
{
    size_t place;
    pthread_mutex_lock(&lock);
    must(msg_change_all(&runtime, back, count, &place));
    pthread_mutex_unlock(&lock);
}

int main(void)
{
    static struct { _Alignas(64) msg_sender sender; } seats[THREADS]; /* zero bytes are closed */
    pthread_t threads[THREADS];
    msg_change back[PARTS];
    size_t count, wrong = 0;
    must(msg_open(&runtime, NULL));
    must(msg_make_root_class(&runtime, SQUARE));
    must(msg_add(&runtime, SQUARE, false, AREA, OWN));
    for (int i = 0; i < THREADS; i++) must(msg_sender_open(&runtime, &seats[i].sender));
    come(back, &count);
    printf("%d parts came, and %zu take them back\n", PARTS, count);
    printf("a class below Square: %s\n", msg_fault_text(msg_dispose_class(&runtime, SQUARE)));
    printf("a tile's area is %u, a square's %u\n", area(&seats[0].sender, TILE),
           area(&seats[0].sender, SQUARE));
    go(back, count);
    printf("a tile's area is %u, a square's %u\n", area(&seats[0].sender, TILE),
           area(&seats[0].sender, SQUARE));
    for (int i = 0; i < THREADS; i++) pthread_create(&threads[i], NULL, work, &seats[i].sender);
    while (sending < THREADS) {}
    for (int i = 0; i < TIMES; i++) {
        come(back, &count);
        go(back, count);
    }
    is_over = true;
    for (int i = 0; i < THREADS; i++) {
        void *more;
        pthread_join(threads[i], &more);
        wrong += (size_t)more;
        must(msg_sender_close(&runtime, &seats[i].sender));
    }
    printf("%d times beside %d threads: %zu wrong answers\n", TIMES, THREADS, wrong);
    msg_close(&runtime);
    return wrong != 0;
}
