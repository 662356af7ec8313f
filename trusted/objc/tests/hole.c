/* A handler of a signal comes before each single instruction of a send whose place in the thread's
 * notes has those of two other messages, and sends the same; and of one that is noted there, first
 * or second, and sends others: each answer is of its own class and selector. */
#define _GNU_SOURCE /* for the names of registers */
#include "places.h"
#include <signal.h>
#include <ucontext.h>

enum { ENDLESS = 100000, NUMBERS_APART = 4096, FEW = 10, NOBODY = 13, OF_A_PLACE = 4 };

/* What is sent, and what it answers. */
struct message { id to; SEL sel; long answer; };
typedef long (*way)(const struct message *);

static const struct message *now_sent[2];
static way now_by;
static long wrong, handled;

static id nobody(id self, SEL sel, ...) { (void)self; (void)sel; return (id)NOBODY; }
static IMP forward(id to, SEL sel) { (void)to; (void)sel; return nobody; }

#if defined(__x86_64__) && (!defined(SANITIZED) || defined(STEPS))
enum { TRAP = 1 << 8, LEAST = FEW };

static volatile long step, at;

static void on_step(int number, siginfo_t *info, void *context)
{
    (void)number, (void)info;
    if (step++ < at) return;
    ((ucontext_t *)context)->uc_mcontext.gregs[REG_EFL] &= ~TRAP;
    handled = 1;
    for (int i = 0; i < 2; i++)
        if (now_by(now_sent[i]) != now_sent[i]->answer) handled = -1;
}

static inline __attribute__((always_inline)) void trap(int on)
{
    unsigned long flags = __builtin_ia32_readeflags_u64();
    __builtin_ia32_writeeflags_u64(on ? flags | TRAP : flags & ~(unsigned long)TRAP);
}

static void set_handler(void)
{
    struct sigaction action = {.sa_sigaction = on_step, .sa_flags = SA_SIGINFO};
    sigaction(SIGTRAP, &action, NULL);
}
#else
enum { LEAST = 0 };
static long step, at;
static void trap(int on) { (void)on; }
static void set_handler(void) {}
#endif

static volatile int steps; /* whether the send is tried by steps, or plainly, as in the handler */

#define WAY(name, type, call, answers) \
    static long name(const struct message *it) \
    { \
        int traps = steps; \
        steps = 0; \
        if (traps) trap(1); \
        type found = call; \
        if (traps) trap(0); \
        return answers; \
    }
WAY(by_send, IMP, objc_msg_lookup(it->to, it->sel), (long)found(it->to, it->sel))
WAY(by_super, IMP, objc_msg_lookup_super(&((struct objc_super){it->to, it->to->isa}), it->sel),
    (long)found(it->to, it->sel))
WAY(by_question, BOOL, class_respondsToSelector(it->to->isa, it->sel),
    found == (it->answer != NOBODY) ? it->answer : -1)

static void send_plainly(const struct message *it)
{
    if (send(it->to, it->sel) != it->answer) wrong++;
}

/* The first is noted, or two others are. */
static void prepare(const struct message *all, int noted, int others)
{
    if (!noted) send_plainly(all);
    for (int i = 1; i <= others; i++) send_plainly(&all[i]);
    if (noted) send_plainly(all);
}

/* Whether a handler was tried before each instruction of a send of the first message. Where that is
 * noted it sends two others, else the same. By the rounds it is noted first at times, and second.
 */
static int try_each(way by, const struct message *all, int noted)
{
    now_by = by;
    for (int i = 0; i < 2; i++) now_sent[i] = &all[noted ? i + 1 : 0];
    for (at = 0; at < ENDLESS; at++) {
        long most = 0;
        for (int round = 0; round < (noted ? 4 : 2); round++) {
            prepare(all, noted, 2 + (noted && round % 2));
            step = handled = 0;
            steps = 1;
            if (by(all) != all->answer || handled < 0) wrong++;
            if (step > most) most = step;
        }
        if (most <= at) break;
    }
    return at >= LEAST && at < ENDLESS;
}

static Class made(int number)
{
    char name[32];
    snprintf(name, sizeof name, "Made%d", number);
    Class class_ = objc_allocateClassPair(&root, name, 0);
    objc_registerClassPair(class_);
    return class_;
}

int main(void)
{
    take();
    SEL first = sel_registerName("hole_first"), second = one_place_on("hole_second");
    SEL third = one_place_on("hole_third");
    Class here = made(0), there = NULL;
    for (int i = 1; i <= NUMBERS_APART; i++) there = made(i);
    class_addMethod(here, first, one, "@16@0:8");
    class_addMethod(here, second, two, "@16@0:8");
    class_addMethod(there, first, two, "@16@0:8");
    __objc_msg_forward2 = forward;
    id of = class_createInstance(here, 0), other = class_createInstance(there, 0);
    const struct message messages[] = {
        {of, first, 11}, {of, second, 12}, {other, first, 12}, {of, third, NOBODY}};
    static const struct { way by; int one, other;
    } tries[] = {{by_send, 0, 1},     {by_send, 0, 2},     {by_send, 0, 3},
                 {by_send, 3, 0},     {by_super, 0, 1},    {by_super, 0, 2},
                 {by_question, 0, 1}, {by_question, 0, 3}, {by_question, 3, 0}};
    int tried = 0;
    set_handler();
    for (size_t i = 0; i < sizeof tries / sizeof *tries; i++) {
        struct message all[OF_A_PLACE] = {messages[tries[i].one], messages[tries[i].other]};
        for (int k = 0, next = 2; k < OF_A_PLACE; k++)
            if (k != tries[i].one && k != tries[i].other) all[next++] = messages[k];
        tried += try_each(tries[i].by, all, 0) && try_each(tries[i].by, all, 1);
    }
    object_dispose(of);
    object_dispose(other);
    printf("tried %d, wrong %ld\n", tried, wrong);
    return 0;
}
