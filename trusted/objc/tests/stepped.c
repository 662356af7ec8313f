/* A handler of a signal comes before each single instruction of a send, and of a change, and
 * sends: what it finds, and what it came between, is by the changes that there are. */
#define _GNU_SOURCE /* for the names of registers */
#include "places.h"

enum { ENDLESS = 100000 };

static SEL first, second;
static id object;
static long wrong, handled;

#if defined(__x86_64__) && (!defined(SANITIZED) || defined(STEPS))
#include "../../process/tests/stepping.h"

static volatile long at;

static bool at_step(void)
{
    if (step++ < at) return true;
    handled = send(object, first);
    return false;
}

static IMP lookup(SEL sel)
{
    trap(1);
    IMP imp = objc_msg_lookup(object, sel);
    trap(0);
    return imp;
}

static void replace(SEL sel, IMP imp)
{
    trap(1);
    class_replaceMethod(&root, sel, imp, "@16@0:8");
    trap(0);
}

/* Whether the handler came so late that there was no such step. */
static int begin(long next)
{
    int over = next && step < at + 1;
    at = next;
    step = handled = 0;
    return over;
}
#else
static void set_steps(void) {}
static IMP lookup(SEL sel) { return objc_msg_lookup(object, sel); }
static void replace(SEL sel, IMP imp) { class_replaceMethod(&root, sel, imp, "@16@0:8"); }
static int begin(long next) { return next > 1; }
#endif

static IMP other_of(long next) { return next & 1 ? one : two; }
static long answer_of(long next) { return next & 1 ? 11 : 12; }

/* What this thread has noted is then older, since an exchange notes nothing, or of the change. */
static long change(int older, long next)
{
    if (older)
        method_exchangeImplementations(class_getInstanceMethod(&root, first),
                                       class_getInstanceMethod(&root, second));
    else class_replaceMethod(&root, first, other_of(next), "@16@0:8");
    return older ? (long)method_getImplementation(class_getInstanceMethod(&root, first))(object,
                                                                                         first)
                 : answer_of(next);
}

static int is_or(long answer, long before, long after)
{
    return !answer || answer == before || answer == after;
}

static long send_each(SEL sel, int older)
{
    long next = 0;
    for (; next < ENDLESS && !begin(next); next++) {
        long expected = change(older, next), found = (long)lookup(sel)(object, sel);
        if (sel == first && found != expected) wrong++;
        if (!is_or(handled, expected, expected) || send(object, first) != expected) wrong++;
    }
    return next;
}

static long change_each(void)
{
    long next = 0;
    change(0, 1);
    for (; next < ENDLESS && !begin(next); next++) {
        replace(first, other_of(next));
        if (!is_or(handled, answer_of(next + 1), answer_of(next)) ||
            send(object, first) != answer_of(next))
            wrong++;
    }
    return next;
}

int main(void)
{
    take();
    first = sel_registerName("first");
    second = one_place_on("second"); /* so it is noted second */
    class_addMethod(&root, first, one, "@16@0:8");
    class_addMethod(&root, second, two, "@16@0:8");
    object = class_createInstance(&child, 0);
    send(object, first);
    send(object, second);
    set_steps();
    long ended = send_each(first, 1) < ENDLESS && send_each(second, 1) < ENDLESS;
    ended += send_each(first, 0) < ENDLESS && send_each(second, 0) < ENDLESS;
    ended += change_each() < ENDLESS;
    printf("tried %ld, wrong %ld\n", ended, wrong);
    object_dispose(object);
    return 0;
}
