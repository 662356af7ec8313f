/* What a host wrote before a change is seen by whoever finds a number that the change gave, and by
 * whoever is told of the change. One thread writes a slot of a table, which is plain memory, and
 * then gives the slot's number to a method. Others find the number and read its slot: each by one
 * way alone, so that none of the others orders memory for it. Under ThreadSanitizer a read that
 * nothing orders after the write is told as a race, too.
 *
 * There are a runtime with a lock of the host's and that of the process. In both the change after
 * which there are n gives the number n. */
#include "msg_process.h"
#include <sched.h>
#include <stdatomic.h>
#include <stdio.h>
#include <stdlib.h>
#include <time.h>
#include <unistd.h>

enum { CLASS, A = 1, B = 2, ROOM = 1 << 17, LEAST = 1000, PATIENCE = 220, MILLISECONDS = 2000 };

static struct slot { uint64_t words[4]; } table[ROOM];
static msg_runtime runtime = MSG_RUNTIME_INIT;
static pthread_mutex_t lock = PTHREAD_MUTEX_INITIALIZER;
static const uint64_t *words;
static const msg_lookup_row lookups[] = {{CLASS, false, B}, {CLASS, false, A}};
static atomic_bool is_over;
static atomic_long wrong;

static void must(uint32_t fault)
{
    if (fault && !wrong++) fprintf(stderr, "%s\n", msg_fault_text(fault));
}

static uint64_t word_of(uint32_t number, int i) { return number * 0x9e3779b97f4a7c15 + i; }

static void write_slot(uint32_t number)
{
    for (int i = 0; i < 4; i++) table[number].words[i] = word_of(number, i);
}

static void see(uint32_t number)
{
    for (int i = 0; i < 4; i++)
        if (table[number].words[i] != word_of(number, i) && !wrong++)
            fprintf(stderr, "of %u word %d wasn't seen\n", number, i);
}

/* ---- ways to find a number, or 0 ---- */

static uint32_t by_find(msg_sender *sender)
{
    uint32_t imp = 0;
    must(msg_find(&runtime, &lock, sender, CLASS, false, A, &imp));
    return imp;
}

static uint32_t by_find_all(msg_sender *sender)
{
    uint32_t imps[2];
    size_t place;
    must(msg_find_all(&runtime, &lock, sender, lookups, 2, imps, &place));
    see(imps[0]);
    return imps[1];
}

static uint32_t by_probe(msg_sender *sender)
{
    uint32_t imp, answer = msg_probe(sender, CLASS, false, A, &imp);
    if (answer == MSG_MISSED) return 0;
    must(answer);
    return imp;
}

static uint32_t by_probe_all(msg_sender *sender)
{
    uint32_t imps[2];
    size_t place;
    uint32_t answer = msg_probe_all(sender, lookups, 2, imps, 2, &place);
    if (answer == MSG_MISSED) return 0;
    must(answer);
    see(imps[0]);
    return imps[1];
}

static uint32_t by_inline_recall(msg_sender *sender)
{
    uint32_t imp = msg_recall_inline(sender, words, msg_slot(CLASS, false), A);
    return imp ? imp : by_probe(sender);
}

static uint32_t by_recall(msg_sender *sender)
{
    uint64_t stamp;
    must(msg_stamp(sender, CLASS, false, &stamp));
    uint32_t imp = (uint32_t)msg_recall(sender, msg_slot(CLASS, false), A, stamp);
    return imp ? imp : by_probe(sender);
}

static uint32_t by_fill(msg_sender *sender)
{
    uint32_t imp = 0;
    pthread_mutex_lock(&lock);
    must(msg_fill(&runtime, sender, CLASS, false, A, &imp));
    pthread_mutex_unlock(&lock);
    return imp;
}

static uint32_t by_refresh(msg_sender *sender)
{
    uint64_t count = 0;
    must(msg_refresh(sender, &count));
    return (uint32_t)count;
}

static uint32_t by_meeting(msg_sender *sender)
{
    uint64_t count = 0;
    pthread_mutex_lock(&lock);
    must(msg_meet(&runtime, sender));
    must(msg_change_count(&runtime, &count));
    pthread_mutex_unlock(&lock);
    return (uint32_t)count;
}

static uint32_t by_process_find(msg_sender *none)
{
    uint32_t imp = 0;
    (void)none;
    must(msg_process_find(CLASS, false, A, &imp));
    return imp;
}

static uint32_t by_process_find_all(msg_sender *none)
{
    uint32_t imps[2];
    size_t place;
    (void)none;
    must(msg_process_find_all(lookups, 2, imps, &place));
    see(imps[0]);
    return imps[1];
}

static uint32_t by_process_at_once(msg_sender *none)
{
    uint32_t imp, answer = msg_process_find_at_once(CLASS, false, A, &imp);
    (void)none;
    if (answer == MSG_LOCK_HELD) return 0;
    must(answer);
    return imp;
}

static struct way {
    _Alignas(64) uint32_t (*find)(msg_sender *);
    msg_sender sender;
    atomic_uint last; /* that it found */
} ways[] = {{.find = by_find}, {.find = by_find_all}, {.find = by_probe}, {.find = by_probe_all},
            {.find = by_inline_recall}, {.find = by_recall}, {.find = by_fill},
            {.find = by_refresh}, {.find = by_meeting}, {.find = by_process_find},
            {.find = by_process_find_all}, {.find = by_process_at_once}};
enum { WAYS = sizeof ways / sizeof *ways };

static void *read_on(void *one)
{
    struct way *way = one;
    for (uint32_t last = 0; !is_over;) {
        uint32_t number = way->find(&way->sender);
        if (number) see(number);
        if (number && number < last && !wrong++) fprintf(stderr, "%u after %u\n", number, last);
        if (number <= last) sched_yield(); /* for the one that changes */
        else way->last = last = number;
    }
    return NULL;
}

/* ---- changes ---- */

static void change(msg_runtime *it, uint32_t number)
{
    const msg_change both[] = {{.kind = MSG_SETS_IMP, .number = CLASS, .sel = A, .imp = number},
                               {.kind = MSG_SETS_IMP, .number = CLASS, .sel = B, .imp = number}};
    size_t place;
    if (number % 2) must(msg_replace(it, CLASS, false, A, number));
    else must(msg_change_all(it, both, 2, &place));
}

static void change_both(uint32_t number)
{
    msg_runtime *of_process;
    pthread_mutex_lock(&lock);
    change(&runtime, number);
    pthread_mutex_unlock(&lock);
    must(msg_process_lock(&of_process));
    change(of_process, number);
    msg_process_unlock();
}

/* Three changes. */
static void begin(msg_runtime *it)
{
    must(msg_make_root_class(it, CLASS));
    must(msg_add(it, CLASS, false, A, 2));
    must(msg_add(it, CLASS, false, B, 3));
}

/* One way after another finds the newest number; others may come later. */
static void wait_for(struct way *way, uint32_t number)
{
    while (way->last < number && !wrong) sched_yield();
}

static long milliseconds(void)
{
    struct timespec now;
    timespec_get(&now, TIME_UTC);
    return (long)now.tv_sec * 1000 + now.tv_nsec / 1000000;
}

static void open_all(void)
{
    msg_runtime *of_process;
    for (uint32_t number = 1; number <= 3; number++) write_slot(number);
    must(msg_open(&runtime, NULL));
    must(msg_words(&runtime, &words));
    begin(&runtime);
    must(msg_process_start(NULL));
    must(msg_process_lock(&of_process));
    begin(of_process);
    msg_process_unlock();
    for (int i = 0; i < WAYS; i++) must(msg_sender_open(&runtime, &ways[i].sender));
}

int main(void)
{
    pthread_t threads[WAYS];
    uint32_t number = 4;
    alarm(PATIENCE);
    open_all();
    for (int i = 0; i < WAYS; i++) pthread_create(&threads[i], NULL, read_on, &ways[i]);
    long begun = milliseconds(), end = begun + MILLISECONDS;
    for (; number < ROOM && !wrong && (number < LEAST || milliseconds() < end); number++) {
        write_slot(number); change_both(number);
        if (number % 2) wait_for(&ways[number / 2 % WAYS], number);
    }
    is_over = true;
    for (int i = 0; i < WAYS; i++) pthread_join(threads[i], NULL);
    fprintf(stderr, "%u changes in %ld ms\n", number, milliseconds() - begun);
    printf("visible: %ld wrong\n", wrong);
    return wrong != 0;
}
