/* Handlers of signals that send what was sent before: in the thread that changes methods, and in
 * one that sends beside it. No answer is older than a change that had returned, or than one that
 * the thread had seen; none is newer than what was begun. */
#include "roots.h"
#include <pthread.h>
#include <signal.h>
#include <stdio.h>
#include <sys/time.h>
#include <time.h>

enum { KINDS = 64, SECONDS = 2, PATIENCE = 100, ENOUGH = 10 };
#ifdef SANITIZED /* under which a handler takes longer */
enum { EVERY = 2000 };
#else
enum { EVERY = 150 };
#endif

__attribute__((objc_root_class)) @interface Base { Class isa; }
+ (int)value;
+ (int)other;
@end
@implementation Base
+ (int)value { return 0; }
+ (int)other { return -2; }
@end

#define KIND(n) static int kind##n(id self, SEL sel) { return n; }
#define FOUR(n, k) k(n##0) k(n##1) k(n##2) k(n##3) k(n##4) k(n##5) k(n##6) k(n##7)
#define ALL(k) \
    FOUR(00, k) FOUR(01, k) FOUR(02, k) FOUR(03, k) FOUR(04, k) FOUR(05, k) FOUR(06, k) FOUR(07, k)
ALL(KIND)
#define NAME(n) kind##n,
static int (*const kinds[KINDS])(id, SEL) = {ALL(NAME)};

/* How many changes of `value` were begun, and how many returned; and what each thread has seen. */
static long begun, returned, wrong, handled[2], over;
static _Thread_local volatile long seen;
static _Thread_local int thread;
static Class base;
static SEL value, other;

static long get(long *at) { return __atomic_load_n(at, __ATOMIC_SEQ_CST); }
static void set(long *at, long to) { __atomic_store_n(at, to, __ATOMIC_SEQ_CST); }
static void count(long *at) { __atomic_fetch_add(at, 1, __ATOMIC_SEQ_CST); }

static int sent(SEL sel)
{
    return ((int (*)(id, SEL))objc_msg_lookup((id)base, sel))((id)base, sel);
}

/* Unless so many changes were made meanwhile that an answer stands for more than one. */
static void look(void)
{
    long least = get(&returned);
    if (least < seen) least = seen;
    int answer = sent(value);
    long most = get(&begun);
    if (most - least >= KINDS) return;
    while (least % KINDS != answer && least <= most) least++;
    if (least > most) count(&wrong);
    else if (least > seen) seen = least;
}

static void handle(int signal)
{
    if (sent(other) != -2) count(&wrong);
    look();
    count(&handled[thread]);
}

/* A selector more that the shim notes where it notes `value`, at a place of two notes: a thread
 * that looks up three in turns goes the slow way each time, where handlers then find it. */
static SEL at_place_of_value(void)
{
    static int fillers;
    char name[16];
    SEL sel = value;
    for (int i = 0; i < 4096 && (sel == value || *(uint16_t *)sel != *(uint16_t *)value); i++) {
        snprintf(name, sizeof name, "filler%d", fillers++);
        sel = sel_registerName(name);
    }
    return sel;
}

static void *send_beside(void *none)
{
    SEL alike = at_place_of_value(), another = at_place_of_value();
    thread = 1;
    while (!get(&over)) {
        objc_msg_lookup((id)base, alike);
        objc_msg_lookup((id)base, another);
        look();
    }
    return none;
}

static void change(Class meta, long number)
{
    set(&begun, number);
    class_replaceMethod(meta, value, (IMP)kinds[number % KINDS], "i16@0:8");
    set(&returned, number);
}

static int few_handled(void) { return get(&handled[0]) < ENOUGH || get(&handled[1]) < ENOUGH; }

int main(void)
{
    pthread_t beside;
    [Base value];
    [Base other];
    base = objc_getClass("Base");
    value = @selector(value);
    other = @selector(other);
    pthread_create(&beside, NULL, send_beside, NULL);
    signal(SIGALRM, handle);
    signal(SIGUSR1, handle);
    setitimer(ITIMER_REAL, &(struct itimerval){{0, EVERY}, {0, EVERY}}, NULL);
    time_t end = time(NULL) + SECONDS + 1;
    for (long step = 1; time(NULL) < end || (few_handled() && time(NULL) < end + PATIENCE);
         step++) {
        change(base->isa, step);
        look();
        if (step % 50 == 0) pthread_kill(beside, SIGUSR1);
    }
    setitimer(ITIMER_REAL, &(struct itimerval){{0, 0}, {0, 0}}, NULL);
    set(&over, 1);
    pthread_join(beside, NULL);
    printf("handled %s, wrong %ld\n", few_handled() ? "few" : "enough", get(&wrong));
    return 0;
}
