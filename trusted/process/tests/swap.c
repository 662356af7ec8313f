/* Lists that replace two methods, A and B, as one change, beside threads that find A and then B:
 * no B is older than the A before it. Then the same one by one, where one is. The implementation
 * of both is the number of the swap. */
#include "msg_process.h"
#include <sched.h>
#include <stdatomic.h>
#include <stdio.h>

enum { SWAPS = 10000, SOME = 100, FINDERS = 4, CLASS = 0, OTHER = 1, A = 1, B = 2 };

static atomic_bool is_over, is_one_by_one;
static atomic_long older[2], wrong, pairs;

static void must(uint32_t fault)
{
    if (fault && !wrong++) fprintf(stderr, "%s\n", msg_fault_text(fault));
}

static uint32_t find(uint32_t number, uint32_t sel)
{
    uint32_t imp = 0;
    must(msg_process_find(number, false, sel, &imp));
    return imp;
}

static void *find_on(void *none)
{
    uint32_t least = 0;
    for (; !is_over; pairs++) {
        uint32_t a = find(CLASS, A), b = find(OTHER, B);
        /* asked afterwards: where it isn't yet, there were lists alone */
        if (b < a) older[is_one_by_one]++;
        if (a < least || find(OTHER, B) < b) wrong++; /* each by itself never goes back */
        least = a;
    }
    return none;
}

static msg_change part(uint32_t number, uint32_t sel, uint32_t imp)
{
    return (msg_change){.kind = MSG_REPLACES, .number = number, .sel = sel, .imp = imp};
}

static void change(const msg_change *parts, size_t count)
{
    msg_runtime *runtime;
    size_t place;
    must(msg_process_lock(&runtime));
    must(msg_change_all(runtime, parts, count, &place));
    for (size_t i = 0; i < count; i++)
        msg_process_cache(msg_key(2 * parts[i].number, parts[i].sel));
    msg_process_unlock();
}

/* A thread has found A and B from then on. */
static void wait_for_pairs(void)
{
    for (long most = pairs + FINDERS; pairs <= most;) sched_yield();
}

static void swap(uint32_t to)
{
    const msg_change parts[] = {part(CLASS, A, to), part(OTHER, B, to)};
    if (is_one_by_one) {
        change(&parts[0], 1);
        if (to % SOME == 0) wait_for_pairs();
        change(&parts[1], 1);
    } else change(parts, 2);
    if (to % SOME == 0) wait_for_pairs();
}

int main(void)
{
    pthread_t threads[FINDERS];
    msg_runtime *runtime;
    must(msg_process_start(NULL));
    must(msg_process_lock(&runtime));
    must(msg_make_root_class(runtime, CLASS));
    must(msg_make_root_class(runtime, OTHER));
    msg_process_unlock();
    uint32_t to = 1;
    swap(to);
    for (int i = 0; i < FINDERS; i++) pthread_create(&threads[i], NULL, find_on, NULL);
    while (++to <= SWAPS) swap(to);
    is_one_by_one = true;
    while (++to <= 2 * SWAPS) swap(to);
    is_over = true;
    for (int i = 0; i < FINDERS; i++) pthread_join(threads[i], NULL);
    fprintf(stderr, "%ld pairs of finds; an old B after a new A: %ld by lists, %ld one by one\n",
            (long)pairs, (long)older[0], (long)older[1]);
    printf("swap: %ld wrong, %ld mixed by lists, %s\n", (long)wrong, (long)older[0],
           older[1] ? "some one by one" : "too little was tried");
    return wrong || older[0] || !older[1];
}
