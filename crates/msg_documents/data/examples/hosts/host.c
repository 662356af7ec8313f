/* A whole small host in C: it opens a runtime, makes its classes, and sends in four threads, each
 * by a sender of its own, while the main thread exchanges two methods. */
#include "msg_runtime.h"
#include <pthread.h>
#include <stdio.h>
#include <stdlib.h>

enum { THREADS = 4, SENDS = 1000000, EXCHANGES = 1001 };

/* All numbers are the host's to give: classes from 0, selectors and implementations from 1. */
enum { SHAPE, SQUARE, TILE, UNKNOWN };
enum { AREA = 1, SIDES, COUNT };
enum { FORWARD, SHAPE_AREA, SHAPE_SIDES, SHAPE_COUNT, SQUARE_AREA, METHODS };

/* What the library says of a sender's handle, msg_sender_size, is proved to be this. */
_Static_assert(sizeof(msg_sender) == 524384, "the header's sender isn't the library's");

typedef struct { uint32_t class_, side; } object;
typedef uint32_t (*method)(object *self);

static uint32_t forward(object *self) { (void)self; return 404; }
static uint32_t shape_area(object *self) { (void)self; return 0; }
static uint32_t shape_sides(object *self) { (void)self; return 4; }
static uint32_t shape_count(object *self) { (void)self; return 1; }
static uint32_t square_area(object *self) { return self->side * self->side; }

/* By an implementation's number. What a lookup answers is a number that the host gave with a
 * method, or 0 for forwarding: no test of the bounds is wanted. */
static const method methods[METHODS] = {forward, shape_area, shape_sides, shape_count, square_area};

static msg_runtime runtime = MSG_RUNTIME_INIT;
static pthread_mutex_t lock = PTHREAD_MUTEX_INITIALIZER;

static void want(uint32_t answer)
{
    if (answer == MSG_DONE) return;
    fprintf(stderr, "fault %u\n", answer);
    exit(1);
}

/* ---- changes: under the lock ---- */

static uint32_t unlocked(uint32_t answer)
{
    pthread_mutex_unlock(&lock);
    return answer;
}

#define CHANGE(call) (pthread_mutex_lock(&lock), unlocked(call))

static void make_classes(void)
{
    static const msg_method of_shape[] = {{AREA, SHAPE_AREA}, {SIDES, SHAPE_SIDES}};
    static const msg_method of_shapes_class[] = {{COUNT, SHAPE_COUNT}};
    static const msg_method of_square[] = {{AREA, SQUARE_AREA}};
    want(CHANGE(msg_make_root_class(&runtime, SHAPE)));
    want(CHANGE(msg_attach(&runtime, SHAPE, of_shape, 2, of_shapes_class, 1)));
    want(CHANGE(msg_make_class(&runtime, SQUARE, SHAPE)));
    want(CHANGE(msg_attach(&runtime, SQUARE, of_square, 1, of_square, 0)));
}

/* ---- sends ---- */

/* By all changes that had returned; by the lock after a miss. */
static uint32_t send(msg_sender *sender, object *self, uint32_t sel)
{
    uint32_t imp;
    want(msg_find(&runtime, &lock, sender, self->class_, false, sel, &imp));
    return methods[imp](self);
}

static const uint64_t *words; /* where the runtime's shared words lie */

/* The short way: what the sender has noted, where no change has affected the class since. */
static uint32_t send_recalled(msg_sender *sender, object *self, uint32_t sel)
{
    uint32_t imp = msg_recall_inline(sender, words, 2 * self->class_, sel);
    return imp ? methods[imp](self) : send(sender, self, sel);
}

static void *work(void *taken)
{
    msg_sender *sender = taken;
    object square = {SQUARE, 3};
    size_t odd = 0;
    for (int i = 0; i < SENDS; i++) {
        uint32_t answer = (i & 1 ? send : send_recalled)(sender, &square, AREA);
        if (answer != 9 && answer != 4) odd++; /* the area, or after an exchange the sides */
    }
    return (void *)odd;
}

/* A sender's handle is written by each find of its thread, so each begins a line of the processor's
 * cache. Zero bytes are a closed one. */
typedef struct { _Alignas(64) msg_sender sender; } seat;
static seat seats[THREADS + 1];

static size_t exchange_beside_sends(void)
{
    pthread_t threads[THREADS];
    size_t odd = 0;
    for (int i = 0; i < THREADS; i++) pthread_create(&threads[i], NULL, work, &seats[i].sender);
    for (int i = 0; i < EXCHANGES; i++)
        want(CHANGE(msg_exchange(&runtime, SQUARE, false, AREA, SHAPE, false, SIDES)));
    for (int i = 0; i < THREADS; i++) {
        void *answer;
        pthread_join(threads[i], &answer);
        odd += (size_t)answer;
    }
    return odd;
}

int main(void)
{
    msg_config too_large = {.classes = 1048577};
    printf("a closed handle: %u\n", msg_change_count(&runtime, &(uint64_t){0}));
    printf("too many classes: %u\n", msg_open(&runtime, &too_large));
    if (msg_sender_size() != sizeof(msg_sender)) return 2;
    want(msg_open(&runtime, &(msg_config){.classes = UNKNOWN, .senders = THREADS + 1}));
    want(msg_words(&runtime, &words));
    make_classes();

    for (int i = 0; i <= THREADS; i++) want(msg_sender_open(&runtime, &seats[i].sender));
    msg_sender *own = &seats[THREADS].sender, another = MSG_SENDER_INIT;
    printf("a sender too many: %u\n", msg_sender_open(&runtime, &another));
    object square = {SQUARE, 3}, tile = {TILE, 5};
    printf("area %u, sides %u\n", send(own, &square, AREA), send(own, &square, SIDES));
    printf("a class that isn't made: %u\n", send(own, &tile, AREA));
    printf("wrong sends beside %d exchanges: %zu\n", EXCHANGES, exchange_beside_sends());

    uint64_t seen;
    want(msg_refresh(own, &seen));
    printf("after %u changes: area %u, sides %u\n", (unsigned)seen, send(own, &square, AREA),
           send(own, &square, SIDES));
    printf("recalled: area %u, sides %u\n", send_recalled(own, &square, AREA),
           send_recalled(own, &square, SIDES));
    want(CHANGE(msg_make_class(&runtime, TILE, SQUARE)));
    printf("a class that was made: sides %u\n", send_recalled(own, &tile, SIDES));
    uint32_t fault = CHANGE(msg_add(&runtime, SQUARE, false, AREA, SHAPE_AREA));
    printf("a method that is there: %u\n", fault);
    printf("a class that isn't there: %u\n", CHANGE(msg_make_class(&runtime, UNKNOWN, SQUARE)));
    printf("still recalled: sides %u\n", send_recalled(own, &tile, SIDES));
    for (int i = 0; i <= THREADS; i++) want(msg_sender_close(&runtime, &seats[i].sender));
    want(msg_close(&runtime));
    printf("closed: %u\n", msg_close(&runtime));
    return 0;
}
