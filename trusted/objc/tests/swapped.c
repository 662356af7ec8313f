/* Lists that replace two methods at once, beside threads that look one up and then the other:
 * never is the first as a list made it and the second as before; and where both are looked up at
 * once, they are always of one list. Then the same one by one, where it isn't so. The methods
 * aren't called: their functions are numbers, behind the begin of memory. */
#include "modules.h"
#include "msg_objc.h"
#include <pthread.h>
#include <sched.h>

enum { LISTS = 10000, SOME = 100, THREADS = 4, BEGIN = 1 << 24 };

static SEL first, second;
static long half[2], mixed[2], wrong, sends;
static int over, one_by_one;

static long look(Class class_, SEL sel) { return (long)objc_msg_lookup((id)class_, sel); }
static int get(int *at) { return __atomic_load_n(at, __ATOMIC_SEQ_CST); }
static void count(long *at) { __atomic_fetch_add(at, 1, __ATOMIC_SEQ_CST); }
static long told(long *at) { return __atomic_load_n(at, __ATOMIC_SEQ_CST); }

/* Asked afterwards whether they are made one by one: where they aren't yet, there were lists
 * alone. */
static void count_by(long *at) { count(&at[get(&one_by_one)]); }

static void look_at_once(void)
{
    struct objc_method_lookup rows[] = {{&root_meta, first, NULL}, {&child_meta, second, NULL}};
    if (objc_lookup_methods(rows, 2) != 2 || !rows[0].imp) count(&wrong);
    if (rows[0].imp != rows[1].imp) count_by(mixed);
}

static void *send_on(void *none)
{
    for (long least = 0; !get(&over); count(&sends)) {
        long one = look(&root, first), other = look(&child, second);
        if (other < one) count_by(half);
        look_at_once();
        if (one < least || look(&child, second) < other) count(&wrong);
        least = one;
    }
    return none;
}

/* A thread has looked from then on, and that's over. */
static void wait_for_sends(void)
{
    for (long most = told(&sends) + THREADS; told(&sends) <= most;) sched_yield();
}

static void swap(long to)
{
    IMP imp = (IMP)(BEGIN + to);
    struct objc_method_swap rows[] = {{&root_meta, first, imp, "@16@0:8"},
                                      {&child_meta, second, imp, "@16@0:8"}};
    if (get(&one_by_one)) {
        class_replaceMethod(&root_meta, first, imp, "@16@0:8");
        if (to % SOME == 0) wait_for_sends();
        class_replaceMethod(&child_meta, second, imp, "@16@0:8");
    } else if (objc_replace_methods(rows, 2) != 2) count(&wrong);
    if (to % SOME == 0) wait_for_sends();
}

int main(void)
{
    pthread_t threads[THREADS];
    long to = 0;
    (void)send; /* of the module, and not called here */
    take();
    first = sel_registerName("first");
    second = sel_registerName("second");
    swap(++to);
    for (int i = 0; i < THREADS; i++) pthread_create(&threads[i], NULL, send_on, NULL);
    while (++to <= LISTS) swap(to);
    __atomic_store_n(&one_by_one, 1, __ATOMIC_SEQ_CST);
    while (++to <= 2 * LISTS) swap(to);
    __atomic_store_n(&over, 1, __ATOMIC_SEQ_CST);
    for (int i = 0; i < THREADS; i++) pthread_join(threads[i], NULL);
    fprintf(stderr, "%ld pairs; half of a swap: %ld by lists, %ld one by one; at once %ld, %ld\n",
            sends, half[0], half[1], mixed[0], mixed[1]);
    printf("wrong %ld; by lists %ld, one by one %s\n", wrong, half[0], half[1] ? "some" : "none");
    printf("at once: by lists %ld, one by one %s\n", mixed[0], mixed[1] ? "some" : "none");
    return 0;
}
