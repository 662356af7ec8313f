/* A handler of a signal comes before each single instruction of a find, and of a change, and
 * finds; and before each two of a find by the first note, and of one by the second, where it may
 * also change what is found. What it finds, and what it came between, is by the changes that there
 * are. Four methods are noted at one place, which has two notes, so that the handler writes what
 * the find was reading. */
#define _GNU_SOURCE /* for the names of registers */
#include "msg_process.h"
#include <stdio.h>

#ifdef __x86_64__
#include "stepping.h"

enum { ONE = 1, OTHERS = 3, OF_OTHERS = 7, SHORT = 100, LONG = 70000 };
enum { BETWEEN = 100, CLOSE = 20, ENDLESS = 100000, FAULT = 1000000 };

static volatile long at, again_at;
static volatile uint32_t again, newest; /* what the handler found, and what is to be found */
static volatile bool others_differ;
static long wrong, tried;
static bool at_once, changes;

static void want(const char *what, bool holds)
{
    if (!holds && wrong++ < 20)
        fprintf(stderr, "%s: at step %ld, %ld\n", what, (long)at, (long)again_at);
}

/* The implementation, or a fault behind FAULT. */
static uint32_t find(uint32_t sel)
{
    uint32_t imp = 0;
    uint32_t fault = (at_once ? msg_process_find_at_once : msg_process_find)(0, false, sel, &imp);
    return fault ? FAULT + fault : imp;
}

static uint32_t other(uint32_t i) { return ONE + (i + 1) * MSG_NOTES; }

/* So nothing else is noted at their place. */
static void find_others(bool may_hold)
{
    for (uint32_t i = 0; i < OTHERS; i++) {
        uint32_t imp = find(other(i));
        if (imp != OF_OTHERS + i && (!may_hold || imp != FAULT + MSG_LOCK_HELD))
            others_differ = true;
    }
}

/* In a handler it is refused where its thread has the lock. */
static uint32_t change(void)
{
    msg_runtime *runtime;
    uint32_t fault = msg_process_lock(&runtime);
    if (fault) return fault;
    fault = msg_replace(runtime, 0, false, ONE, newest + 1);
    if (!fault) newest++;
    msg_process_unlock();
    return fault;
}

static bool at_step(void)
{
    long now = step++;
    if (now == at && changes) change();
    else if (now == at) find_others(true);
    if (now == again_at) again = find(ONE);
    return now < at || now < again_at;
}

static void begin(long first, long second)
{
    at = first;
    again_at = second;
    step = 0;
    again = 0;
    at_once = false;
    tried++;
}

static uint32_t find_in_steps(void)
{
    uint32_t imp = 0;
    trap(1);
    uint32_t fault = msg_process_find(0, false, ONE, &imp);
    trap(0);
    return fault ? FAULT + fault : imp;
}

/* What all is found to be after it, and that neither the lock nor the sender was left behind. */
static void settle(void)
{
    msg_runtime *runtime;
    at_once = false;
    want("afterwards", find(ONE) == newest);
    find_others(false);
    want("the others", !others_differ);
    want("after the others", find(ONE) == newest);
    want("the sender", msg_process_own.sender->open);
    want("the lock", !msg_process_lock(&runtime));
    msg_process_unlock();
}

static bool is_in(bool second)
{
    uint64_t key = msg_key(0, ONE);
    const msg_sender *sender = msg_process_own.sender;
    const msg_note *note = second ? MSG_SECOND_NOTE_OF(sender, key) : MSG_NOTE_OF(sender, key);
    return msg_said(note, key) < MSG_SAID_NONE;
}

/* As the newer of its place or as the older. An odd number of notes more, and it is in the other
 * one. */
static void note_in(bool second, bool is_older)
{
    find_others(false);
    find(ONE);
    if (!is_in(second)) find(other(0)), find(other(1)), find(ONE);
    if (is_older) find(other(0));
    want("where it is noted", is_in(second));
}

/* Of what is noted: before two steps of it the handler finds the others, or changes what is found,
 * and then finds the same again, which is noted where it was. */
static void find_noted(bool second, bool is_older, long between)
{
    for (long first = 0; first < ENDLESS; first++)
        for (long next = first; next < first + between; next++) {
            note_in(second, is_older);
            begin(first, next);
            uint32_t before = newest, found = find_in_steps();
            want("what is noted", found == before || found == newest);
            want("in the handler", !again || again == newest || again == FAULT + MSG_LOCK_HELD);
            settle();
            if (step <= first) return;
        }
    want("endless", false);
}

/* Each way, of numbers that a seal has and of longer ones. */
static void find_each_noted(void)
{
    static const uint32_t froms[] = {SHORT, LONG};
    for (int way = 0; way < 4; way++) {
        newest = froms[way / 2];
        want("a change", !change());
        find_noted(way % 2, way / 2, way / 2 ? CLOSE : BETWEEN);
        changes = true;
        if (way / 2) find_noted(way % 2, false, CLOSE);
        changes = false;
    }
}

/* After a change, so that nothing is noted. */
static void find_slowly(bool once)
{
    for (long next = 0; next < ENDLESS; next++) {
        want("a change", !change());
        begin(next, -1);
        at_once = once;
        want("what isn't noted", find_in_steps() == newest);
        settle();
        if (step <= next) return;
    }
    want("endless", false);
}

/* The handler finds the same by what was before or is after. */
static void change_in_steps(void)
{
    for (long next = 0; next < ENDLESS; next++) {
        find(ONE);
        begin(-1, next);
        at_once = next % 2;
        trap(1);
        uint32_t fault = change();
        trap(0);
        want("a change in steps", !fault);
        want("beside the change", !again || again == newest - 1 || again == newest ||
                                      again == FAULT + MSG_LOCK_HELD);
        settle();
        if (step <= next) return;
    }
    want("endless", false);
}

static uint32_t open_all(void)
{
    msg_runtime *runtime;
    uint32_t fault = msg_process_start(NULL);
    if (!fault) fault = msg_process_lock(&runtime);
    if (!fault) fault = msg_make_root_class(runtime, 0);
    for (uint32_t i = 0; !fault && i < OTHERS; i++)
        fault = msg_replace(runtime, 0, false, other(i), OF_OTHERS + i);
    msg_process_unlock();
    return fault;
}

int main(void)
{
    want("the start", !open_all() && !change() && find(ONE) == newest);
    set_steps();
    find_each_noted();
    newest = SHORT;
    find_slowly(true);
    find_slowly(false);
    change_in_steps();
    fprintf(stderr, "%ld handlers between steps\n", tried);
    printf("stepped: %ld wrong\n", wrong);
    return wrong != 0;
}
#else
int main(void)
{
    puts("stepped: 0 wrong"); /* there are no single steps */
    return 0;
}
#endif
