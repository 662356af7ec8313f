/* A handler of a signal comes before each single instruction of a rest, of going away, of coming
 * back by a find, of finding several as one, of asking what all have seen, and of a thread's end;
 * also where nothing is noted, in a thread's first call, and in a thread without a sender. The
 * handler finds, also several, rests, or changes what is found and asks. For each of these it comes
 * in a copy of the process, whose thread goes on. What must hold there:
 *
 *  - what is found is of a list that there was meanwhile, and several are of one list;
 *  - what is told as seen by all didn't take away what the thread was answered since it rested,
 *    and isn't answered it later; and it is no less than at the thread's last rest;
 *  - in the end the lock is free, the thread's sender is shown, and a rest lets old code go.
 *
 * The header has no handler rest. What it says of a find then doesn't hold where the handler also
 * changed something, so this one doesn't. */
#define _GNU_SOURCE /* for the names of registers */
#include "msg_process.h"
#include <semaphore.h>
#include <stdio.h>

#ifdef __x86_64__
#include "stepping.h"

/* List number `v` gives the first of these lookups the number v, and the others FAR more each.
 * Three of them are noted at one place, which has two notes. */
enum { ONE = 1, OTHER = ONE + MSG_NOTES, THIRD = OTHER + MSG_NOTES };
enum { FAR = 10000, COUNT = 4, SENDERS = 6, MOST = 1000 };
static const msg_lookup_row lookups[COUNT] = {
    {0, 0, ONE}, {0, 0, OTHER}, {0, 0, THIRD}, {1, 1, ONE}};

enum { FINDS, FINDS_AT_ONCE, FINDS_ALL, RESTS, GOES, ASKS, ENDS };
enum { NOTED, SECOND, CHANGED, AWAY, FIRST, WITHOUT, STATES }; /* noted first, or second */
enum { FINDS_TOO, RESTS_TOO, CHANGES, KINDS };
static const char *const acts[] = {"find", "find at once", "find all", "rest",
                                   "away", "ask",          "end"};
static const char *const states[] = {"noted", "second", "changed", "away", "first", "without"};
static const char *const kinds[] = {"finds", "rests", "changes"};

static uint32_t version;      /* the newest list */
static uint64_t counts[MOST]; /* of changes, by the list that was made then */
static uint32_t in_use;       /* the oldest list by which the thread was answered since it rested */
static uint64_t floor_;       /* no less is told: the count at the thread's last rest, or begin */
static uint64_t ceiling;      /* no more is told: the count at which another thread rested */
static uint64_t told;         /* the most that was told */
static uint64_t own, another; /* threads by number */
static int act, state, kind = -1; /* of the handler, in a copy */
static long wrong, failed, steps, copies;

static void want(const char *what, bool holds)
{
    const char *by = kind < 0 ? "nobody" : kinds[kind];
    if (holds || wrong++ > 20) return;
    dprintf(2, "%s: %s, %s; at step %ld one %s\n", what, acts[act], states[state], step, by);
}

/* A handler whose own thread has the lock is told so. */
static bool is_answer(uint32_t fault, bool in_handler)
{
    bool may_be_held = in_handler && step > 0;
    want("a fault", !fault || (fault == MSG_LOCK_HELD && may_be_held));
    return !fault;
}

static uint32_t change(void)
{
    msg_runtime *runtime;
    msg_change parts[COUNT];
    size_t place;
    uint32_t fault = msg_process_lock(&runtime), next = version + 1;
    if (fault) return fault;
    for (uint32_t i = 0; i < COUNT; i++)
        parts[i] = (msg_change){.kind = MSG_REPLACES, .number = lookups[i].number,
                                .meta = lookups[i].meta, .sel = lookups[i].sel,
                                .imp = next + i * FAR};
    want("a list", !msg_change_all(runtime, parts, COUNT, &place));
    want("the count", !msg_change_count(runtime, &counts[next]));
    version = next;
    msg_process_unlock();
    return MSG_DONE;
}

/* Of a list that there was since `least`, which wasn't told as taken away. */
static void is_right(uint32_t answer, uint32_t least)
{
    bool is_of = answer >= least && answer <= version;
    want("an answer", is_of);
    if (is_of && answer < version) want("answered what is gone", told < counts[answer + 1]);
}

static uint64_t own_number(void) { return (uint64_t)syscall(SYS_gettid); }

/* Told by a call that began at the list number `least`. */
static void is_seen(uint64_t seen, uint64_t thread, uint32_t least)
{
    bool is_own = thread == own || thread == own_number(); /* a copy has another */
    if (in_use && in_use < version) want("ahead of what is in use", seen < counts[in_use + 1]);
    want("seen too much", seen <= counts[version] && seen <= ceiling);
    want("seen too little", seen >= floor_ || seen == ceiling);
    if (thread) want("who", seen < counts[version] && (is_own || thread == another));
    else want("nobody", seen >= counts[least]);
    if (seen > told) told = seen;
}

static void ask(bool in_handler)
{
    uint64_t seen = 0, thread = 1;
    uint32_t fault = msg_process_seen_by_all(&seen, &thread);
    if (is_answer(fault, in_handler)) is_seen(seen, thread, version);
}

static uint32_t find(bool in_handler, bool once)
{
    uint32_t imp = 0, least = version;
    uint32_t fault = (once ? msg_process_find_at_once : msg_process_find)(0, false, ONE, &imp);
    if (!is_answer(fault, in_handler)) return 0;
    is_right(imp, least);
    return imp;
}

static void are_of_one(const uint32_t *imps, uint32_t least)
{
    for (int i = 1; i < COUNT; i++) want("of two lists", imps[i] == imps[i - 1] + FAR);
    is_right(imps[0], least);
}

static uint32_t find_all(bool in_handler)
{
    uint32_t imps[COUNT] = {0}, least = version;
    size_t place;
    if (!is_answer(msg_process_find_all(lookups, COUNT, imps, &place), in_handler)) return 0;
    are_of_one(imps, least);
    return imps[0];
}

static void handle(void)
{
    if (kind == FINDS_TOO) find(true, true), find(true, false), find_all(true);
    if (kind == RESTS_TOO && is_answer(msg_process_rest(), true)) in_use = 0;
    if (kind == CHANGES && is_answer(change(), true)) ask(true);
}

static bool at_step(void)
{
    for (int i = 0; i < KINDS && wrong + failed < 20; i++) {
        copies++;
        if (!in_copy(&failed)) continue;
        wrong = 0;
        kind = i;
        handle();
        return false;
    }
    step++;
    return true;
}

/* What the thread was answered it is in from now on. */
static void be_in(uint32_t answer)
{
    if (answer && (!in_use || answer < in_use)) in_use = answer;
}

static void do_in_steps(void)
{
    uint32_t imp = 0, imps[COUNT] = {0}, fault = MSG_DONE, least = version;
    uint64_t seen = 0, thread = 1;
    size_t place;
    bool rests = act == RESTS || act == GOES;
    if (rests) in_use = 0;
    step = 0;
    trap(1);
    if (act == FINDS) fault = msg_process_find(0, false, ONE, &imp);
    else if (act == FINDS_AT_ONCE) fault = msg_process_find_at_once(0, false, ONE, &imp);
    else if (act == FINDS_ALL) fault = msg_process_find_all(lookups, COUNT, imps, &place);
    else if (act == RESTS) fault = msg_process_rest();
    else if (act == GOES) fault = msg_process_away();
    else fault = msg_process_seen_by_all(&seen, &thread);
    trap(0);
    want("the call", !fault);
    if (act == FINDS || act == FINDS_AT_ONCE) is_right(imp, least);
    if (act == FINDS_ALL) are_of_one(imps, least);
    if (act == ASKS) is_seen(seen, thread, least);
    be_in(imp ? imp : imps[0]);
    if (rests) floor_ = counts[least];
}

/* That the lock is free, the sender shown, and what is told goes on. */
static void settle(void)
{
    uint64_t seen = 0, thread = 1;
    ask(false);
    want("the lock", !change());
    ask(false);
    be_in(find(false, false));
    be_in(find_all(false));
    bool has = state != WITHOUT && act != ENDS;
    want("the sender", !has || msg_process_own.sender->open);
    want("a change", !change());
    ask(false);
    in_use = 0;
    want("a rest", !msg_process_rest());
    floor_ = counts[version];
    ask(false);
    want("asked", !msg_process_seen_by_all(&seen, &thread));
    bool is_held = ceiling != UINT64_MAX;
    want("all have rested", seen == (is_held ? ceiling : floor_));
    want("who hasn't", thread == (is_held ? another : 0));
}

static void settle_and_count(void)
{
    settle();
    if (kind >= 0) _exit(wrong != 0);
    steps += step;
    want("steps", step > 3);
}

/* ---- a thread's end: between two destructors, of which one comes before the layer's ---- */

static pthread_key_t first_key, last_key;
static uint32_t version_at_end;

static void begin_end(void *unused)
{
    (void)unused;
    in_use = 0;
    version_at_end = version;
    step = 0;
    trap(1);
}

static void end_end(void *unused)
{
    trap(0);
    (void)unused;
    floor_ = counts[version_at_end];
    be_in(find(false, false));
    settle_and_count();
}

/* ---- each of all ---- */

static bool is_noted_in(bool second)
{
    uint64_t key = msg_key(0, ONE);
    const msg_sender *sender = msg_process_own.sender;
    const msg_note *note = second ? MSG_SECOND_NOTE_OF(sender, key) : MSG_NOTE_OF(sender, key);
    return msg_said(note, key) < MSG_SAID_NONE;
}

/* The first lookup: of three in turns each is noted first at times, and second. */
static void note_in(bool second)
{
    uint32_t imp;
    find_all(false);
    for (int i = 1; i < 10 && !is_noted_in(second); i++)
        want("in turns", !msg_process_find(0, false, lookups[i % 3].sel, &imp));
    want("where it is noted", is_noted_in(second));
}

static void *do_and_settle(void *none)
{
    own = own_number();
    in_use = 0;
    floor_ = counts[version];
    if (state < FIRST) {
        note_in(state == SECOND);
        want("a rest", !msg_process_rest());
        be_in(find(false, false));
    }
    if (state == CHANGED) want("a change", !change());
    if (state == AWAY) {
        want("away", !msg_process_away());
        in_use = 0;
        want("a change", !change());
    }
    if (act == ENDS) {
        pthread_setspecific(first_key, &steps);
        pthread_setspecific(last_key, &steps);
    } else {
        do_in_steps();
        settle_and_count();
    }
    return none;
}

/* In a thread of its own, which gives its sender back. Nothing more after what is wrong. */
static void try(void)
{
    if (wrong + failed) return;
    static struct { _Alignas(64) msg_sender sender; } taken[SENDERS + 1];
    msg_runtime *runtime;
    pthread_t thread;
    int count = 0;
    if (state == WITHOUT && !msg_process_lock(&runtime)) {
        while (!msg_sender_open(runtime, &taken[count].sender)) count++;
        msg_process_unlock();
    }
    pthread_create(&thread, NULL, do_and_settle, NULL);
    pthread_join(thread, NULL);
    if (!count || msg_process_lock(&runtime)) return;
    while (count--) want("a sender", !msg_sender_close(runtime, &taken[count].sender));
    msg_process_unlock();
}

/* The layer keeps the sender (MSG_SPARES): to close it clears its notes, word by word. */
static void try_ends(void)
{
    act = ENDS;
    for (state = NOTED; state <= AWAY; state++) try();
}

/* ---- another thread that was answered, and doesn't rest meanwhile ---- */

static sem_t is_in, goes_on;

static void *be_in_it(void *none)
{
    uint32_t imp;
    another = own_number();
    want("the other's find", !msg_process_find(0, false, ONE, &imp));
    sem_post(&is_in);
    sem_wait(&goes_on);
    return none;
}

static void try_beside_another(void)
{
    pthread_t thread;
    pthread_create(&thread, NULL, be_in_it, NULL);
    sem_wait(&is_in);
    ceiling = counts[version];
    state = CHANGED;
    for (act = RESTS; act < ENDS; act++) try();
    sem_post(&goes_on);
    pthread_join(thread, NULL);
    ceiling = UINT64_MAX;
    another = 0;
}

static uint32_t open_all(void)
{
    msg_runtime *runtime;
    msg_config config = {.classes = 4, .senders = SENDERS, .arrays = {8, 8, 8, 8, 8, 8, 8, 8, 8}};
    uint32_t fault = msg_process_start(&config);
    if (!fault) fault = msg_process_lock(&runtime);
    if (!fault) fault = msg_make_root_class(runtime, 0);
    if (!fault) fault = msg_make_root_class(runtime, 1);
    msg_process_unlock();
    return fault ? fault : change();
}

int main(void)
{
    ceiling = UINT64_MAX;
    sem_init(&is_in, 0, 0);
    sem_init(&goes_on, 0, 0);
    pthread_key_create(&first_key, begin_end);
    want("the start", !open_all());
    pthread_key_create(&last_key, end_end);
    set_steps();
    for (state = NOTED; state < STATES; state++)
        for (act = FINDS; act < ENDS; act++) try();
    try_beside_another();
    try_ends();
    fprintf(stderr, "%ld steps, %ld handlers between them\n", steps, copies);
    printf("stepped_rests: %ld wrong\n", wrong + failed);
    return wrong + failed != 0;
}
#else
int main(void)
{
    puts("stepped_rests: 0 wrong"); /* there are no single steps */
    return 0;
}
#endif
