/* A timer's handler sends beside a thread that sends the same messages, in each way, all of which
 * lie at one place of its notes: as where a program is sampled. Each answer is its own method's. */
#include "places.h"
#include <errno.h>
#include <signal.h>

enum {
    KINDS = 6,
    METHODS = 4,
    NOBODY = 9,
    TURNS = 200,
    EVERY = 60000,
    ENOUGH = 100,
    PATIENCE = 100
};

static SEL sels[KINDS];
static id object;
static long wrong, handled, many;
static timer_t timer;

static id zero(id self, SEL sel, ...) { (void)self; (void)sel; return (id)0; }
static id three(id self, SEL sel, ...) { (void)self; (void)sel; return (id)3; }
static id nobody(id self, SEL sel, ...) { (void)self; (void)sel; return (id)NOBODY; }
static IMP forward(id to, SEL sel) { (void)to; (void)sel; return nobody; }

static const IMP functions[METHODS] = {zero, one, two, three};
static long answer_of(int kind)
{
    static const long all[] = {0, 11, 12, 3, NOBODY, NOBODY};
    return all[kind];
}

/* Their place has two notes, so each comes where the one before the last has been. */
static void send_three(void)
{
    for (int kind = 1; kind < 4; kind++) wrong += send(object, sels[kind]) != answer_of(kind);
}

static void send_all(void)
{
    Class class_ = object->isa;
    struct objc_super above = {object, class_->superclass.class_};
    for (int kind = 0; kind < KINDS; kind++) wrong += send(object, sels[kind]) != answer_of(kind);
    for (int kind = 0; kind < KINDS; kind++)
        wrong += class_respondsToSelector(class_, sels[kind]) != (kind < METHODS);
    wrong += class_getMethodImplementation(class_, sels[2]) != two;
    wrong += (long)objc_msg_lookup_super(&above, sels[1])(object, sels[1]) != 11;
}

/* Until the next, however long it takes itself. */
static void start_timer(void)
{
    timer_settime(timer, 0, &(struct itimerspec){.it_value = {0, EVERY}}, NULL);
}

static void handle(int signal)
{
    int kept = errno;
    (void)signal;
    if (many) send_all();
    else wrong += send(object, sels[1]) != 11;
    count(&handled);
    start_timer(); /* which may be deleted by now */
    errno = kept;
}

static void go_on(double seconds, void (*turn)(void))
{
    double start = now();
    set(&handled, 0);
    while (now() < start + seconds || (get(&handled) < ENOUGH && now() < start + PATIENCE))
        for (int i = 0; i < TURNS; i++) turn();
}

int main(void)
{
    take();
    __objc_msg_forward2 = forward;
    for (int kind = 0; kind < KINDS; kind++) {
        char name[32];
        snprintf(name, sizeof name, "kind%d", kind);
        sels[kind] = one_place_on(name);
        if (kind < METHODS)
            class_addMethod(kind % 2 ? &root : &child, sels[kind], functions[kind], "@16@0:8");
    }
    object = class_createInstance(&child, 0);
    send_all();
    struct sigevent event = {.sigev_notify = SIGEV_SIGNAL, .sigev_signo = SIGALRM};
    signal(SIGALRM, handle);
    timer_create(CLOCK_MONOTONIC, &event, &timer);
    start_timer();
    go_on(1.5, send_three);
    int enough = get(&handled) >= ENOUGH;
    set(&many, 1);
    go_on(1.5, send_all);
    enough += get(&handled) >= ENOUGH;
    timer_delete(timer);
    printf("sampled enough %d, wrong %ld\n", enough, get(&wrong));
    return 0;
}
