/* A handler of a signal comes before each single instruction of objc_msg_lookup, of
 * objc_lookup_methods and of objc_replace_methods; also where nothing is noted, and in a thread's
 * first. It sends, looks up several as one, or replaces them. For each of these it comes in a copy
 * of the process, whose thread goes on. What must hold there: a message is answered by a list that
 * there was meanwhile, several lookups by one list, and after it all is by the newest. */
#define _GNU_SOURCE /* for the names of registers */
#include "places.h"
#include "msg_objc.h"
#include "msg_process.h"
#include <pthread.h>
#include <stdlib.h>

#if defined(__x86_64__) && !defined(SANITIZED)
#include "../../process/tests/stepping.h"

/* ---- memory that a handler may take while its thread takes some; none is given back ---- */

enum { ROOM = 1 << 28, UNIT = 32 };
static _Alignas(UNIT) char room[ROOM];
static size_t used;

void *malloc(size_t size)
{
    size_t whole = (size + 2 * UNIT - 1) / UNIT * UNIT;
    size_t at = __atomic_fetch_add(&used, whole, __ATOMIC_SEQ_CST);
    if (at + whole > ROOM) _exit(9);
    *(size_t *)(void *)(room + at) = size;
    return room + at + UNIT;
}

void *calloc(size_t count, size_t size) { return malloc(count * size); } /* zeros */

void *realloc(void *from, size_t size)
{
    void *to = malloc(size);
    size_t before = from ? *(size_t *)(void *)((char *)from - UNIT) : 0;
    if (before) memcpy(to, from, before < size ? before : size);
    return to;
}

void free(void *unused) { (void)unused; }

/* ---- what is sent ---- */

enum { LISTS = 4, SELS = 3, COUNT = SELS + 1 }; /* of a class all lie at one place, of two notes */
enum { SENDS, LOOKS_UP, REPLACES, ACTS };
enum { NOTED, SECOND, CHANGED, FIRST, STATES }; /* noted first, or second */
enum { HANDLER_SENDS, HANDLER_LOOKS_UP, HANDLER_REPLACES, KINDS };

/* List number v has one of these for each selector, by v % LISTS. */
#define F(n) static id f##n(id self, SEL sel, ...) { (void)self; (void)sel; return (id)n; }
F(100) F(101) F(102) F(103) F(200) F(201) F(202) F(203) F(300) F(301) F(302) F(303)
static const IMP functions[SELS][LISTS] = {
    {f100, f101, f102, f103}, {f200, f201, f202, f203}, {f300, f301, f302, f303}};

static SEL sels[SELS];
static id object;
static volatile long version; /* the newest list */
static int act, state, kind = -1;
static long wrong, failed, steps, copies;

/* Of the layer for a process, as the shim has it; no program's where the shim is a library. */
extern __thread struct msg_process_thread shim_process_own __attribute__((weak));
extern uint32_t shim_process_lock(msg_runtime **runtime) __attribute__((weak));
extern void shim_process_unlock(void) __attribute__((weak));

static void want(const char *what, bool holds)
{
    if (holds || wrong++ > 20) return;
    dprintf(2, "%s: act %d, state %d; at step %ld handler %d\n", what, act, state, step, kind);
}

static bool is_of(IMP imp, int sel, long list) { return imp == functions[sel][list % LISTS]; }

/* One of those since `least`. */
static void is_right(IMP imp, int sel, long least)
{
    while (least < version && !is_of(imp, sel, least)) least++;
    want("an answer", is_of(imp, sel, least));
}

/* The handler looks them up in another order. */
static size_t look_up(IMP *imps, bool in_handler)
{
    static const int orders[2][COUNT] = {{0, 1, 2, 3}, {1, 2, 3, 0}};
    const int *at = orders[in_handler];
    struct objc_method_lookup rows[COUNT];
    for (int i = 0; i < SELS; i++)
        rows[at[i]] = (struct objc_method_lookup){&child, sels[i], NULL};
    rows[at[SELS]] = (struct objc_method_lookup){&root, sels[0], NULL};
    size_t answer = objc_lookup_methods(rows, COUNT);
    for (int i = 0; i < COUNT; i++) imps[i] = rows[at[i]].imp;
    return answer;
}

static void are_of_one(const IMP *imps, long least)
{
    while (least < version && !is_of(imps[0], 0, least)) least++;
    for (int i = 0; i < SELS; i++) want("of one list", is_of(imps[i], i, least));
    want("of one method", imps[SELS] == imps[0]);
}

static struct objc_method_swap swaps[SELS];

static void plan(void)
{
    for (int i = 0; i < SELS; i++)
        swaps[i] = (struct objc_method_swap){&root, sels[i], functions[i][(version + 1) % LISTS],
                                             NULL};
}

static void replace(void)
{
    plan();
    want("replaced", objc_replace_methods(swaps, SELS) == SELS);
    version++;
}

/* Where the thread's own lookup has the lock, a handler mustn't change. */
static bool may_replace(void)
{
    msg_runtime *runtime;
    if (act == REPLACES || !shim_process_lock || shim_process_lock(&runtime)) return false;
    shim_process_unlock();
    return true;
}

/* Beside a list of its own thread that isn't made yet, or is. One is seen by its rows, so they are
 * seen one by one. */
static void handle(void)
{
    IMP imps[COUNT];
    long least = version;
    if (act == REPLACES) version++;
    if (kind == HANDLER_SENDS)
        for (int i = SELS; i--;) is_right(objc_msg_lookup(object, sels[i]), i, least);
    if (kind == HANDLER_LOOKS_UP) {
        size_t answer = look_up(imps, true);
        want("looked up", answer == COUNT || (!answer && step > 0));
        if (answer == COUNT) are_of_one(imps, least);
    }
    if (act == REPLACES) version--;
    if (kind == HANDLER_REPLACES && may_replace()) replace();
}

static bool at_step(void)
{
    for (int i = 0; i < KINDS && wrong + failed < 20; i++) {
        copies++;
        if (!in_copy(&failed)) continue;
        wrong = 0;
        kind = i;
        handle();
        return false;
    }
    step++;
    return true;
}

static void do_in_steps(void)
{
    IMP imp = NULL, imps[COUNT];
    long least = version;
    size_t answer = COUNT;
    step = 0;
    if (act == REPLACES) plan();
    trap(1);
    if (act == SENDS) imp = objc_msg_lookup(object, sels[0]);
    else if (act == LOOKS_UP) answer = look_up(imps, false);
    else answer = objc_replace_methods(swaps, SELS) + COUNT - SELS;
    trap(0);
    if (act == REPLACES) version++;
    want("the call", answer == COUNT);
    if (act == SENDS) is_right(imp, 0, least);
    if (act == LOOKS_UP) are_of_one(imps, least);
}

/* Twice, since the handler may have been told that its thread has the lock. */
static void settle(void)
{
    IMP imps[COUNT];
    for (int again = 0; again < 2; again++) {
        for (int i = SELS; i--;) is_right(objc_msg_lookup(object, sels[i]), i, version);
        want("all", look_up(imps, false) == COUNT);
        are_of_one(imps, version);
        if (!again) replace();
    }
}

static bool is_noted_in(bool second)
{
    if (!shim_process_lock) return true; /* it can't be told */
    uint64_t key = child.key + sels[0]->name.key;
    const msg_sender *sender = shim_process_own.sender;
    const msg_note *note = second ? MSG_SECOND_NOTE_OF(sender, key) : MSG_NOTE_OF(sender, key);
    return msg_said(note, key) < MSG_SAID_NONE;
}

/* The first message: of three in turns each is noted first at times, and second. */
static void note_in(bool second)
{
    IMP imps[COUNT];
    objc_msg_lookup(object, sels[0]);
    look_up(imps, false);
    for (int i = 1; i < 10 && !is_noted_in(second); i++) objc_msg_lookup(object, sels[i % SELS]);
    want("where it is noted", is_noted_in(second));
}

static void *do_and_settle(void *none)
{
    if (state != FIRST) note_in(state == SECOND);
    if (state == CHANGED) replace();
    do_in_steps();
    settle();
    if (kind >= 0) _exit(wrong != 0);
    steps += step;
    want("steps", step > 3);
    return none;
}

int main(void)
{
    take();
    sels[0] = one_place_on("the first");
    sels[1] = one_place_on("the second");
    sels[2] = one_place_on("the third");
    for (int i = 0; i < SELS; i++) class_addMethod(&root, sels[i], functions[i][0], "@16@0:8");
    object = class_createInstance(&child, 0);
    replace();
    send(object, sels[0]);
    set_steps();
    for (state = NOTED; state < STATES; state++)
        for (act = SENDS; act < (state == SECOND ? REPLACES : ACTS); act++) {
            pthread_t thread;
            pthread_create(&thread, NULL, do_and_settle, NULL);
            pthread_join(thread, NULL);
        }
    fprintf(stderr, "%ld steps, %ld handlers between them\n", steps, copies);
    printf("wrong %ld\n", wrong + failed);
    return 0;
}
#else
int main(void)
{
    puts("wrong 0"); /* there are no single steps */
    return 0;
}
#endif
