/* Lists that replace three methods of two classes and a metaclass as one, beside threads that find
 * the three as one: by msg_find_all they are never of two lists. By three calls of msg_find, one
 * after another, they are in the end. The implementation of all is the number of the list. */
#include "msg_runtime.h"
#include <sched.h>
#include <stdatomic.h>
#include <stdio.h>
#include <time.h>

enum { LISTS = 8000, FINDERS = 3, COUNT = 3, CLASS = 0, OTHER = 1, OTHERS = 2, A = 1, B = 2 };
enum { ROUNDS = 1000, PATIENCE = 100 };

static const msg_lookup_row lookups[COUNT] = {{CLASS, 0, A}, {OTHER, 1, B}, {OTHER, 0, A}};
static msg_runtime runtime = MSG_RUNTIME_INIT;
static pthread_mutex_t lock = PTHREAD_MUTEX_INITIALIZER;
static atomic_bool is_over;
static atomic_long wrong, mixed[2], rounds[2];

static void must(uint32_t fault)
{
    if (fault && !wrong++) fprintf(stderr, "%s\n", msg_fault_text(fault));
}

static void find_one_by_one(msg_sender *sender, uint32_t *imps)
{
    for (int i = 0; i < COUNT; i++)
        must(msg_find(&runtime, &lock, sender, lookups[i].number, lookups[i].meta, lookups[i].sel,
                      &imps[i]));
}

static void *find_on(void *as_one)
{
    bool is_as_one = as_one != NULL;
    static _Thread_local struct { _Alignas(64) msg_sender sender; } seat;
    uint32_t least = 0, imps[COUNT];
    size_t place = 99;
    pthread_mutex_lock(&lock);
    must(msg_sender_open(&runtime, &seat.sender));
    pthread_mutex_unlock(&lock);
    for (; !is_over; rounds[is_as_one]++) {
        if (is_as_one)
            must(msg_find_all(&runtime, &lock, &seat.sender, lookups, COUNT, imps, &place));
        else find_one_by_one(&seat.sender, imps);
        if (imps[0] != imps[1] || imps[1] != imps[2]) mixed[is_as_one]++;
        if (imps[0] < least) wrong++; /* by itself none goes back */
        least = imps[0];
    }
    if (place != 99) wrong++;
    pthread_mutex_lock(&lock);
    must(msg_sender_close(&runtime, &seat.sender));
    pthread_mutex_unlock(&lock);
    return NULL;
}

/* A list of the three, and sometimes a change of a class that nobody asks. */
static void change(uint32_t to)
{
    msg_change parts[COUNT];
    size_t place;
    for (int i = 0; i < COUNT; i++)
        parts[i] = (msg_change){.kind = MSG_REPLACES, .number = lookups[i].number,
                                .meta = lookups[i].meta, .sel = lookups[i].sel, .imp = to};
    pthread_mutex_lock(&lock);
    must(msg_change_all(&runtime, parts, COUNT, &place));
    if (to % 2) must(msg_replace(&runtime, OTHERS, false, A, to));
    pthread_mutex_unlock(&lock);
}

/* Faults, which write nothing but the place. */
static void refused(msg_sender *sender)
{
    const msg_lookup_row bad[] = {{CLASS, 0, A}, {CLASS, 2, A}, {CLASS, 0, 0}};
    uint32_t imps[COUNT] = {7, 7, 7};
    size_t place = 99;
    if (msg_probe_all(sender, lookups, COUNT, imps, 2, &place) != MSG_NO_ROOM) wrong++;
    if (msg_fill_all(&runtime, sender, lookups, 2, imps, COUNT, &place) != MSG_NO_ROOM) wrong++;
    if (place != 99) wrong++;
    if (msg_probe_all(sender, bad, COUNT, imps, COUNT, &place) != MSG_BAD_CHANGE) wrong++;
    if (place != 1) wrong++;
    const msg_lookup_row none = {CLASS, 0, 0}, beyond = {UINT32_MAX, 0, A};
    if (msg_fill_all(&runtime, sender, &none, 1, imps, 1, &place) != MSG_NO_SELECTOR) wrong++;
    if (msg_probe_all(sender, &beyond, 1, imps, 1, &place) != MSG_NO_CLASS || place) wrong++;
    if (imps[0] != 7 || imps[1] != 7 || imps[2] != 7) wrong++;
    if (msg_probe_all(sender, NULL, 0, NULL, 0, &place)) wrong++; /* of none nothing is missed */
}

/* What is noted is found without the lock, also after a change of another class. */
static void noted(msg_sender *sender)
{
    uint32_t imps[COUNT];
    size_t place;
    must(msg_fill_all(&runtime, sender, lookups, COUNT, imps, COUNT, &place));
    must(msg_replace(&runtime, OTHERS, false, B, 5));
    must(msg_probe_all(sender, lookups, COUNT, imps, COUNT, &place));
    for (int i = 0; i < COUNT; i++) if (imps[i] != 1) wrong++;
    must(msg_replace(&runtime, OTHER, true, B, 1));
    if (msg_probe_all(sender, lookups, COUNT, imps, COUNT, &place) != MSG_MISSED) wrong++;
}

static bool is_little(void) { return !mixed[0] || rounds[0] < ROUNDS || rounds[1] < ROUNDS; }

int main(void)
{
    static msg_sender sender = MSG_SENDER_INIT;
    pthread_t threads[2 * FINDERS];
    uint32_t to = 1;
    must(msg_open(&runtime, NULL));
    for (uint32_t number = CLASS; number <= OTHERS; number++)
        must(msg_make_root_class(&runtime, number));
    change(to);
    must(msg_sender_open(&runtime, &sender));
    refused(&sender);
    noted(&sender);
    for (int i = 0; i < 2 * FINDERS; i++)
        pthread_create(&threads[i], NULL, find_on, i % 2 ? &threads : NULL);
    while (!rounds[0] || !rounds[1]) sched_yield();
    time_t end = time(NULL) + PATIENCE;
    while (++to <= LISTS || (is_little() && time(NULL) < end)) {
        change(to);
        if (to % 8 == 0) sched_yield(); /* so that some of it is found without the lock */
    }
    is_over = true;
    for (int i = 0; i < 2 * FINDERS; i++) pthread_join(threads[i], NULL);
    must(msg_sender_close(&runtime, &sender));
    printf("several: %ld wrong, %ld mixed as one, %s\n", wrong, mixed[1],
           is_little() ? "too little was tried" : "some one by one");
    return wrong || mixed[1] || is_little();
}
