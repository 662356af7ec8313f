/* between.c: three plug-ins are in. A thousand times the oldest is taken out and comes back as the
 * newest, while three threads send. No lookup finds either of the other two gone. */
#include <msg_runtime.h>
#include <stdatomic.h>
#include <stdio.h>
#include <stdlib.h>
#include <string.h>

enum { SQUARE, TILE, AREA = 1, OWN = 1, FIRST, TIMES = 1000, PLUG_INS = 3, PARTS = 3, MOST = 32 };
static msg_runtime runtime = MSG_RUNTIME_INIT;
static pthread_mutex_t lock = PTHREAD_MUTEX_INITIALIZER;
static atomic_bool is_over;
static atomic_int sending;

struct plug_in {
    msg_change parts[PARTS], back[MOST];
    size_t backs;
};
static struct plug_in in[PLUG_INS]; /* in the order in which they came */
static size_t count_in;

static void must(uint32_t fault)
{
    if (fault) {
        fprintf(stderr, "fault %u\n", fault);
        exit(1);
    }
}

/* Each brings a class of its own, and covers a method of its superclass's. */
static struct plug_in plug_in(uint32_t i)
{
    return (struct plug_in){
        .parts = {{.kind = MSG_MAKES_CLASS, .number = TILE + i, .other = SQUARE},
                  {.kind = MSG_ADDS, .number = TILE + i, .sel = AREA, .imp = FIRST + i},
                  {.kind = MSG_COVERS, .number = SQUARE, .sel = AREA, .imp = FIRST + i}}};
}

static void bring(struct plug_in it)
{
    size_t place;
    pthread_mutex_lock(&lock);
    must(msg_change_all_with_undo(&runtime, it.parts, PARTS, it.back, MOST, &it.backs, &place));
    pthread_mutex_unlock(&lock);
    in[count_in++] = it;
}

static void put(msg_change *list, size_t *count, const msg_change *more, size_t many)
{
    memcpy(list + *count, more, many * sizeof *more);
    *count += many;
}

/* Takes out the plug-in at this place, as one list: the ways back of those that came later, the
 * newest first, its own way back, and the parts of the others again. The new way back is cut into
 * one for each of them, the newest first. */
static struct plug_in take_out(size_t at)
{
    msg_change list[MOST], back[MOST], *next = back;
    size_t count = 0, ends[PLUG_INS], end, place;
    struct plug_in it = in[at];
    for (size_t i = count_in; i-- > at;) put(list, &count, in[i].back, in[i].backs);
    pthread_mutex_lock(&lock);
    for (size_t i = at + 1; i < count_in; i++) {
        /* without room it makes nothing, and tells how many take back what is listed so far */
        uint32_t fault = msg_change_all_with_undo(&runtime, list, count, back, 0, &ends[i], &place);
        if (fault != MSG_NO_ROOM) must(fault);
        put(list, &count, in[i].parts, PARTS);
    }
    must(msg_change_all_with_undo(&runtime, list, count, back, MOST, &end, &place));
    pthread_mutex_unlock(&lock);
    count_in--;
    for (size_t i = count_in; i > at; i--) {
        in[i].backs = end - ends[i];
        memcpy(in[i].back, next, in[i].backs * sizeof *next);
        next += in[i].backs;
        end = ends[i];
    }
    memmove(in + at, in + at + 1, (count_in - at) * sizeof *in);
    return it;
}

/* At each version at least two are in, and the newest of them covers the square's method. */
static void *work(void *sender)
{
    const msg_lookup_row rows[] = {{.number = TILE, .sel = AREA},
                                   {.number = TILE + 1, .sel = AREA},
                                   {.number = TILE + 2, .sel = AREA},
                                   {.number = SQUARE, .sel = AREA}};
    size_t wrong = 0, place;
    sending++;
    while (!is_over) {
        uint32_t imps[4];
        must(msg_find_all(&runtime, &lock, sender, rows, 4, imps, &place));
        wrong += !imps[0] + !imps[1] + !imps[2] > 1 || imps[3] < FIRST;
    }
    return (void *)wrong;
}

static void show(void)
{
    uint32_t square, tiles[PLUG_INS];
    must(msg_lookup(&runtime, SQUARE, false, AREA, &square));
    for (uint32_t i = 0; i < PLUG_INS; i++)
        must(msg_lookup(&runtime, TILE + i, false, AREA, &tiles[i]));
    printf("%zu in: %u %u %u, a square's %u\n", count_in, tiles[0], tiles[1], tiles[2], square);
}

int main(void)
{
    static struct {
        _Alignas(64) msg_sender sender;
    } seats[PLUG_INS]; /* zero bytes are closed */
    pthread_t threads[PLUG_INS];
    size_t wrong = 0;
    must(msg_open(&runtime, NULL));
    must(msg_make_root_class(&runtime, SQUARE));
    must(msg_add(&runtime, SQUARE, false, AREA, OWN));
    for (uint32_t i = 0; i < PLUG_INS; i++) bring(plug_in(i));
    show();
    for (int i = 0; i < PLUG_INS; i++) must(msg_sender_open(&runtime, &seats[i].sender));
    for (int i = 0; i < PLUG_INS; i++) pthread_create(&threads[i], NULL, work, &seats[i].sender);
    while (sending < PLUG_INS) {}
    for (int i = 0; i < TIMES; i++) bring(take_out(0));
    is_over = true;
    for (int i = 0; i < PLUG_INS; i++) {
        void *more;
        pthread_join(threads[i], &more);
        wrong += (size_t)more;
    }
    show();
    while (count_in) {
        take_out(count_in / 2);
        show();
    }
    for (int i = 0; i < PLUG_INS; i++) must(msg_sender_close(&runtime, &seats[i].sender));
    printf("%d times beside %d threads: %zu wrong answers\n", TIMES, PLUG_INS, wrong);
    msg_close(&runtime);
    return wrong != 0;
}
