/* What is run of trusted/process/msg_process.c and the inline finds: one thread, up to SIGNALS
 * handlers of signals that come before any load or store (each may be interrupted itself, DEPTH
 * deep), and another thread that changes the tables step by step at any time. Sequentially
 * consistent. The library is a model, by its contracts (msg_probe, msg_fill: what a lookup finds at
 * all changes, noted after as many as the stamp of the class says, or more; a change closes the
 * stamps of what it reaches before it is made). One thing more is assumed: a probe that hits is of
 * all changes that have returned, which is tested alone. */
#include <stdatomic.h>
#include <stdbool.h>
#include <stdint.h>
#include <stddef.h>
#include <pthread.h>
#define STATES
#include "every_choice.h"
static void STEP(void);
/* What may be refused: memory, a number for a sender, a cached answer. PLAIN: nothing is. */
#ifdef PLAIN
#define any_refused() false
#else
#define any_refused() any_bool()
#endif
static void other(bool all);
#define cv_store(p, v) ({ __typeof__(*(p)) cv_value = (v); STEP(); GUEST_MAY(); *(p) = cv_value; })
#undef atomic_load
#undef atomic_store
#undef atomic_load_explicit
#undef atomic_store_explicit
#undef atomic_signal_fence
#undef atomic_fetch_add
#undef atomic_fetch_sub
/* The other thread's steps commute with all but loads and stores of what it shares: the stamps, the
 * lock, the library. */
static unsigned long words[3]; /* the count of changes, and the stamps of two classes */
#define IS_SHARED(p) ((char *)(p) >= (char *)words && (char *)(p) < (char *)(words + 3))
#define __atomic_load_n(p, order) (STEP(), IS_SHARED(p) ? other(false) : (void)0, *(p))
#define __atomic_store_n(p, v, order) cv_store(p, v)
#define __atomic_exchange_n(p, v, order) \
    ({ STEP(); __typeof__(*(p)) cv_old = *(p); *(p) = (v); cv_old; })
#if defined FORKS || defined FORKER /* the other shares more: `forks`, and `asks` */
#define GUEST_MAY() other(false)
#else
#define GUEST_MAY() ((void)0)
#endif
#define atomic_load(p) (STEP(), GUEST_MAY(), *(p))
#define atomic_store(p, v) cv_store(p, v)
#define atomic_load_explicit(p, order) (STEP(), *(p))
#define atomic_store_explicit(p, v, order) cv_store(p, v)
#define atomic_signal_fence(order) ((void)0)
#define __atomic_signal_fence(order) ((void)0)
#define atomic_fetch_add(p, v) ({ STEP(); GUEST_MAY(); *(p) += (v); })
#define atomic_fetch_sub(p, v) ({ STEP(); *(p) -= (v); })
#define _Atomic
#define atomic_bool _Bool
#define atomic_uint unsigned
#ifndef SIGNALS
#define SIGNALS 1
#endif
#ifndef DEPTH
#define DEPTH 1
#endif
#ifndef ROUNDS
#define ROUNDS 1
#endif
#ifndef FINDS
#define FINDS 0 /* of the other thread, which has a sender of its own */
#endif

#include "msg_runtime.h"
static void cv_loads(const msg_note *note, msg_note *all, uint64_t *stamp);
static uint64_t cv_said(const msg_note *note, uint64_t key, uint64_t old, uint32_t *imp);
static uint64_t cv_stamp_and_count(const msg_note *note, uint64_t *count);
#ifdef EARLY /* must fail: the seal before the stamp */
#define CV_STAMP_AND_COUNT(note, stamp) \
    uint64_t cv_seal = __atomic_load_n(&note->seal, 0), cv_count; \
    stamp = cv_stamp_and_count(note, &cv_count)
#define CV_SEAL(note) cv_seal
#else
#define CV_STAMP_AND_COUNT(note, stamp) \
    uint64_t cv_count; stamp = cv_stamp_and_count(note, &cv_count)
#define CV_SEAL(note) __atomic_load_n(&note->seal, 0)
#endif
#ifdef ROUGH /* must fail, but not beside one change: a count is compared by one bit */
#define CV_IS_NEW(count, stamp) (((count) & 1) >= ((stamp) & 1))
#else
#define CV_IS_NEW(count, stamp) ((count) >= (stamp))
#endif
#ifdef LONG /* each number is taken for a long one */
#define IS_LONG 1
#else
#define IS_LONG 0
#endif
#ifdef WEAK /* must fail: a number by a load of its own */
#define IS_WEAK 1
#else
#define IS_WEAK 0
#endif
struct seat *cv_seat(void);
void cv_free(struct seat *);
static uint64_t cv_number = 1; /* the kernel's, of the thread */
#include "msg_process.c"
struct msg_room msgroom;
#include "shim_note.h"

static int depth;
static void say(const char *what, long a, long b)
{
    if (search->traced == 512) return;
    search->trace[search->traced].what = what;
    search->trace[search->traced].a = a;
    search->trace[search->traced].b = b;
    search->trace[search->traced++].depth = depth;
}
#define SAY(w, x, y) say(w, (long)(x), (long)(y))
void cv_show_trace(void)
{
    for (int i = 0; i < search->traced; i++)
        printf("   %*s%s %ld %ld\n", 4 * search->trace[i].depth, "", search->trace[i].what,
               search->trace[i].a, search->trace[i].b);
}
/* ---- the model of the library ---- */
enum { A, B };
#define KEY(i) msg_key(2 + 2 * (i), 1) /* of two classes, but of one place, which has two notes */
#define CLOSED UINT64_MAX
static uint64_t made;     /* changes that are made */
static uint64_t finished; /* the count of them as the last call returned, in the order of all */
/* Of so many changes the last that reached the class. */
static uint64_t last_affected[ROUNDS + 4][2];
static int holder;        /* of the lock: 0, 1 this thread, 2 the other */
static bool opened[4], inside[4];
static uint32_t answer_of(uint32_t key, uint64_t count)
{
    uint64_t since = last_affected[count][key];
    return key == B && since == 1 ? 0 : 1 + key * 8 + (uint32_t)since;
}
static uint32_t index_of(uint32_t number, bool meta, uint32_t sel)
{
    bool is_one = (number == 1 || number == 2) && !meta && sel == 1;
    __CPROVER_assert(is_one, "the parts of the key");
    return number - 1;
}
/* A change reaches the one class, or both: each is closed by a step of its own. */
static bool reaches_both;
static void close_first(void)
{
    reaches_both = any_bool();
    words[1 + A] = CLOSED;
}
static void close_second(void)
{
    if (reaches_both) words[1 + B] = CLOSED;
}
static void make_change(void)
{
    made++;
    last_affected[made][A] = made;
    last_affected[made][B] = reaches_both ? made : last_affected[made - 1][B];
    words[0] = made;
}
static void open_stamp(uint32_t key) { if (words[1 + key] == CLOSED) words[1 + key] = made; }

enum { SEATS = 4 };
static struct seat pool[SEATS];
static bool taken[SEATS];
#define WHICH(s) ((int)(SEAT_OF(s) - pool))
struct seat *cv_seat(void)
{
    int i = 0;
    if (any_refused()) return NULL;
    while (i < SEATS && taken[i]) i++;
    __CPROVER_assert(i < SEATS, "no more seats than a thread and its handlers may open");
    taken[i] = true;
    return &pool[i];
}
void cv_free(struct seat *seat)
{
    __CPROVER_assert(!inside[seat - pool] && !opened[seat - pool], "freed when closed");
    taken[seat - pool] = false;
}

static int fork_is; /* another thread's: not begun, counted, with the lock, going on, over */
static void enter(const msg_sender *s)
{
    other(false);
    __CPROVER_assert(fork_is != 3, "RULE 5: no call begins while a fork goes on");
    const struct seat *seat = SEAT_OF(s);
    __CPROVER_assert(seat >= pool && seat < pool + SEATS, "a sender of a seat");
    __CPROVER_assert(opened[WHICH(s)], "that is open");
    __CPROVER_assert(!inside[WHICH(s)], "RULE 3: a sender is in one call at a time");
    inside[WHICH(s)] = true;
    SAY("in a call on sender", WHICH(s), 0);
    STEP();
}
static void leave(const msg_sender *s) { STEP(); other(false); inside[WHICH(s)] = false; }

static uint64_t mark_of(uint32_t imp)
{
    return !imp ? MSG_SAID_NONE : IS_LONG ? MSG_SAID_LONG : imp;
}

/* Which note of the place a lookup is noted in: the one that is of it, else any. The library puts
 * the older one out; by what else is noted there, that nobody asks for here, it may be either. */
static bool is_of(const msg_note *it, uint32_t key) { return KEY(key) - it->seal <= MSG_SAID_NONE; }
static bool is_second(const msg_sender *s, uint32_t key)
{
    return is_of(s->second_notes, key) || (!is_of(s->notes, key) && any_bool());
}
static void keep(msg_sender *s, uint32_t key, uint64_t count, uint32_t imp)
{
    msg_note *it = is_second(s, key) ? s->second_notes : s->notes;
    STEP(); it->imp = imp;
    STEP(); it->seal = KEY(key) - mark_of(imp);
    STEP(); it->count = count; it->stamp = 8 * (1 + key);
    SAY("noted: key, imp", key, imp);
}
uint32_t msg_sender_open(msg_runtime *r, msg_sender *s)
{
    __CPROVER_assert(holder == 1, "under the lock");
    if (any_refused()) return MSG_NO_SENDER;
    opened[WHICH(s)] = true;
    SAY("sender opened", WHICH(s), made);
    return 0;
}
uint32_t msg_sender_close(msg_runtime *r, msg_sender *s)
{
    __CPROVER_assert(holder == 1, "under the lock");
    __CPROVER_assert(!inside[WHICH(s)], "RULE 3: closed in no call");
    opened[WHICH(s)] = false; s->notes[0] = s->second_notes[0] = (msg_note){0};
    return 0;
}
uint32_t msg_probe(msg_sender *s, uint32_t number, bool meta, uint32_t sel, uint32_t *imp)
{
    uint32_t answer = MSG_MISSED, key = index_of(number, meta, sel);
    enter(s);
    if (words[1 + key] != CLOSED && !any_refused()) {
        *imp = answer_of(key, made);
        keep(s, key, any_refused() ? words[1 + key] : made, *imp);
        answer = 0;
    }
    leave(s);
    return answer;
}
uint32_t msg_fill(msg_runtime *r, msg_sender *s, uint32_t number, bool meta, uint32_t sel,
                  uint32_t *imp)
{
    uint32_t key = index_of(number, meta, sel);
    __CPROVER_assert(holder == 1, "under the lock");
    enter(s); *imp = answer_of(key, made); keep(s, key, made, *imp); open_stamp(key); leave(s);
    return 0;
}
uint32_t msg_lookup(msg_runtime *r, uint32_t number, bool meta, uint32_t sel, uint32_t *imp)
{
    __CPROVER_assert(holder == 1, "under the lock");
    *imp = answer_of(index_of(number, meta, sel), made);
    return 0;
}
/* Both at one count. */
static void find_both(msg_sender *s, const msg_lookup_row *rows, size_t count, uint32_t *imps)
{
    uint64_t now = made;
    for (size_t i = 0; i < count; i++) {
        uint32_t key = index_of(rows[i].number, rows[i].meta, rows[i].sel);
        imps[i] = answer_of(key, now);
        keep(s, key, now, imps[i]);
    }
}
uint32_t msg_probe_all(msg_sender *s, const msg_lookup_row *rows, size_t count, uint32_t *imps,
                       size_t room, size_t *place)
{
    uint32_t answer = MSG_MISSED;
    enter(s);
    if (words[1 + A] != CLOSED && words[1 + B] != CLOSED && !any_refused()) {
        find_both(s, rows, count, imps);
        answer = 0;
    }
    leave(s);
    return answer;
}
uint32_t msg_fill_all(msg_runtime *r, msg_sender *s, const msg_lookup_row *rows, size_t count,
                      uint32_t *imps, size_t room, size_t *place)
{
    __CPROVER_assert(holder == 1, "under the lock");
    enter(s); find_both(s, rows, count, imps); open_stamp(A); open_stamp(B); leave(s);
    return 0;
}
uint32_t msg_change_count(msg_runtime *r, uint64_t *count)
{
    __CPROVER_assert(holder == 1, "under the lock");
    *count = made;
    return 0;
}
uint32_t msg_meet(msg_runtime *r, msg_sender *s)
{
    __CPROVER_assert(holder == 1, "under the lock");
    enter(s); leave(s);
    return 0;
}
uint32_t msg_open_words(msg_runtime *r, const uint32_t *c, size_t n) { return 0; }
uint32_t msg_words(msg_runtime *r, const uint64_t **w) { *w = words; return 0; }

/* ---- the other thread: takes the lock to change, and each of its stores may come at any time
 * ---- */
static int state, rounds, others_finds;
/* Of each lookup the oldest answer that the thread had since it rested: the change that brought it.
 * And the most that was seen by all, as msg_process_seen_by_all counts it. */
static uint64_t in_use[2], told;
#define NOTHING UINT64_MAX
static void tell_what_is_seen(void)
{
    uint64_t least = made;
    if (holder || is_unsure) return;
    for (struct stay *one = stays; one; one = one->next)
        if (one->changes < least) least = one->changes;
    if (least > told) told = least;
    for (int key = A; key <= B; key++)
        __CPROVER_assert(in_use[key] == NOTHING || last_affected[told][key] <= in_use[key],
                         "SEEN: nobody is in what a change took away that is seen by all");
}
#ifdef FORKS
static void guest(void);
#endif
#ifdef FORKER
/* Another thread forks, by the steps of before_fork and in_parent. */
static void fork_goes_on(void)
{
    bool asks = false;
    for (int i = 0; i < SEATS; i++) asks = asks || (taken[i] && pool[i].asks);
    switch (fork_is) {
    case 0: forks++; fork_is = 1; break;
    case 1: if (!holder) holder = 2, fork_is = 2; break;
    case 2: if (asks) holder = 0, fork_is = 1; else still = true, fork_is = 3; break;
    default:
        for (int i = 0; i < SEATS; i++)
            __CPROVER_assert(!inside[i], "RULE 5: no sender is in a call while a fork goes on");
        forks--; still = false; holder = 0; fork_is = 4;
    }
}
#endif
static bool is_alone; /* in the child of a fork */
static void other(bool all)
{
    tell_what_is_seen();
    if (is_alone) return;
#ifdef FORKS
    guest();
#endif
#ifdef FORKER
    for (int i = 0; all ? fork_is == 2 || fork_is == 3 : i < 4 && fork_is < 4 && any_bool(); i++)
        fork_goes_on();
#endif
    /* a find that missed: it fills under the lock, so stamps are opened */
    if (state == 0 && holder == 0 && others_finds < FINDS && !all && any_bool()) {
        holder = 2; others_finds++; state = 3;
    }
    if (state == 3 && (all || any_bool())) {
        open_stamp(any_bool() ? A : B);
        holder = 0; state = 0;
    }
    if (state == 0 && holder == 0 && rounds < ROUNDS && !all && any_bool()) {
        holder = 2; close_first(); state = 4;
    }
    if (state == 4 && (all || !reaches_both || any_bool())) {
        close_second(); state = 1;
    }
    if (state == 1 && (all || any_bool())) {
        make_change(); finished = made; state = 2;
        SAY("changes made by another thread", made, reaches_both);
    }
    /* which may find something before it gives the lock */
    if (state == 2 && (all || any_bool())) {
        if (any_bool()) open_stamp(A);
        holder = 0; rounds++; state = 0;
    }
}
int pthread_mutex_lock(pthread_mutex_t *l)
{
    STEP();
    other(false);
    other(true); /* it goes on until it gives the lock */
    __CPROVER_assert(holder == 0, "RULE 4: no thread waits for itself");
    holder = 1;
    return 0;
}
int pthread_mutex_timedlock(pthread_mutex_t *l, const struct timespec *t)
{
    return pthread_mutex_trylock(l);
}
int pthread_mutex_trylock(pthread_mutex_t *l)
{
    STEP(); other(false);
    if (holder) return 16;
    holder = 1;
    return 0;
}
int pthread_mutex_unlock(pthread_mutex_t *l)
{
    STEP(); __CPROVER_assert(holder == 1, "given by who has it");
    holder = 0;
    return 0;
}
static bool is_told; /* of the thread's end, by the key */
int pthread_setspecific(pthread_key_t k, const void *v)
{
    if (any_refused()) return 12;
    is_told = true;
    return 0;
}
int pthread_key_create(pthread_key_t *k, void (*f)(void *)) { return 0; }
int pthread_atfork(void (*a)(void), void (*b)(void), void (*c)(void)) { return 0; }
#ifndef FORKS
int sched_yield(void) { return 0; }
#else
/* A thread with a seat of its own: it is in calls without the lock, is answered, rests, and goes
 * away, each at any time, GUEST times in all. */
#ifndef GUEST
#define GUEST 3
#endif
enum { GUESTS = SEATS - 1 };
static struct stay guests;
static bool guest_stays;
static int guest_acts, guest_is; /* in a call: it asks, is in it, has left it */
static void guest_calls_on(void)
{
    if (guest_is == 1) {
        guest_is = forks ? 3 : 2;
        inside[GUESTS] = guest_is == 2;
    } else if (guest_is == 2) {
        inside[GUESTS] = false;
        guest_is = 3;
    } else {
        pool[GUESTS].asks = false;
        guest_is = 0;
    }
}
static void guest_is_answered(void)
{
    if (!guest_stays) {
        guests = (struct stay){stays, &stays, made, guests.thread};
        if (stays) stays->at = &guests.next;
        stays = &guests;
    }
    guest_stays = true;
}
static void guest_goes(void)
{
    *guests.at = guests.next;
    if (guests.next) guests.next->at = guests.at;
    guest_stays = false;
}
static void guest(void)
{
    if (guest_is) {
        if (any_bool()) guest_calls_on();
        return;
    }
    if (guest_acts == GUEST || !any_bool()) return;
    guest_acts++;
    if (any_bool()) {
        guest_is = 1;
        pool[GUESTS].asks = true;
    } else if (holder) return; /* the rest is under the lock */
    else if (!guest_stays) guest_is_answered();
    else if (any_bool()) guests.changes = made;
    else guest_goes();
}
int sched_yield(void)
{
    while (guest_is) guest_calls_on(); /* it isn't waited for for ever */
    return 0;
}
#endif

/* The loads before that of the seal: where the stamp lies, the stamp, and the count before or after
 * them, as the compiler likes. */
static uint64_t cv_stamp_and_count(const msg_note *note, uint64_t *count)
{
    bool is_early = any_bool();
    if (is_early) { STEP(); *count = note->count; }
    STEP();
    uint64_t at = note->stamp, stamp = __atomic_load_n((unsigned long *)((char *)words + at), 0);
    if (!is_early) { STEP(); *count = note->count; }
    return stamp;
}
/* And the number, which may be loaded at any time; it is used where it is a long one alone. */
static void cv_loads(const msg_note *note, msg_note *all, uint64_t *stamp)
{
    bool is_early = IS_LONG && any_bool();
    if (is_early) { STEP(); all->imp = note->imp; }
    *stamp = cv_stamp_and_count(note, &all->count);
    STEP(); all->seal = note->seal;
    if (IS_LONG && !is_early) { STEP(); all->imp = note->imp; }
}
/* What a note says, and what one says that is old; a frame of its own, and no more than is used, so
 * that fewer states are told apart. */
static __attribute__((noinline)) uint64_t cv_said(const msg_note *note, uint64_t key, uint64_t old,
                                                  uint32_t *imp)
{
    msg_note all;
    uint64_t stamp;
    cv_loads(note, &all, &stamp);
    uint64_t said = CV_IS_NEW(all.count, stamp) ? key - all.seal : old;
    *imp = said == MSG_SAID_LONG ? all.imp : 0;
    return said <= MSG_SAID_NONE ? said : UINT64_MAX;
}

/* ---- what is claimed ---- */
/* Of each lookup the newest change that the thread has found. */
static uint64_t newest[2];
static uint64_t since_of(uint32_t key, uint32_t imp) { return imp ? imp - 1 - key * 8 : 1; }
static void is_right(uint32_t key, uint64_t least, uint64_t before, uint32_t imp)
{
    bool is_so = false;
    uint64_t since = since_of(key, imp);
    __CPROVER_assert(since >= before, "RIGHT: no answer is older than one that the thread had");
    if (!is_unsure) { /* else nobody is told what it is in */
        __CPROVER_assert(last_affected[told][key] <= since, "SEEN: nor is answered it any more");
        if (!depth && since < in_use[key]) in_use[key] = since;
    }
    if (since > newest[key]) newest[key] = since;
    for (uint64_t c = 0; c <= made; c++)
        is_so = is_so || (least <= c && c <= made && imp == answer_of(key, c));
    __CPROVER_assert(is_so, "RIGHT: an answer of a count that had been reached, and of no finished "
                            "change before the call");
}
#ifdef ONE_KEY
#define any_key() A
#else
#define any_key() (any_bool() ? A : B)
#endif
static void finds(bool waits, bool in_handler)
{
    uint32_t imp = 77, key = any_key();
    uint64_t least = finished, before = newest[key];
    other(false);
    SAY("find of key: waits", key, waits);
    uint32_t fault = waits ? msg_process_find_key(KEY(key), &imp)
                           : msg_process_find_slowly(KEY(key), MSG_WAITS_NOT, &imp);
    bool may_be_held = in_handler || !waits || holder == 1;
    __CPROVER_assert(fault == MSG_DONE || (fault == MSG_LOCK_HELD && may_be_held), "it answers");
    SAY("found: fault, imp", fault, imp);
    if (!fault) is_right(key, least, before, imp);
}
/* Both lookups as one. */
static void finds_all(bool in_handler)
{
    static const msg_lookup_row rows[] = {{1, 0, 1}, {2, 0, 1}};
    uint32_t imps[2] = {77, 77};
    uint64_t least = finished, before[2] = {newest[A], newest[B]};
    size_t place;
    bool is_one = false;
    other(false);
    SAY("finds both", 0, 0);
    uint32_t fault = msg_process_find_all(rows, 2, imps, &place);
    bool may_be_held = in_handler || holder == 1;
    __CPROVER_assert(fault == MSG_DONE || (fault == MSG_LOCK_HELD && may_be_held), "it answers");
    if (fault) return;
    for (uint64_t c = least; c <= made; c++)
        is_one = is_one || (imps[A] == answer_of(A, c) && imps[B] == answer_of(B, c));
    __CPROVER_assert(is_one, "ONE: both are of one count");
    is_right(A, least, before[A], imps[A]);
    is_right(B, least, before[B], imps[B]);
}
/* The way of a send in the shim (trusted/objc/seat.h). */
static void shim_sends(void)
{
    uint32_t imp = 77, key = any_key();
    uint64_t least = finished, before = newest[key];
    other(false);
    SAY("send of key", key, 0);
    bool says = shim_note(KEY(key), &imp);
    SAY("a note says it, imp", says, imp);
    uint64_t second = says ? 0 : shim_said_second(KEY(key));
    /* find_from of trusted/objc/sending.c */
    if (!says && second < MSG_SAID_LONG) says = true, imp = (uint32_t)second;
    if (says) is_right(key, least, before, imp);
    /* find_by_key there: where the lock isn't to be had it asks the rows, which aren't in this
     * model */
    else {
        bool unnoted = second > MSG_SAID_NONE;
        uint32_t fault = unnoted ? msg_process_find_unnoted(KEY(key), MSG_WAITS_A_WHILE, &imp)
                                 : msg_process_find_slowly(KEY(key), MSG_WAITS_A_WHILE, &imp);
        if (!fault) is_right(key, least, before, imp);
        else __CPROVER_assert(fault == MSG_LOCK_HELD, "it answers");
    }
}

/* The thread changes the tables itself, with msg_process_cache. */
static void changes(void)
{
    msg_runtime *r;
    if (msg_process_lock(&r)) return;
    STEP(); close_first();
    STEP(); close_second();
    STEP(); make_change(); finished = made;
    msg_process_cache(KEY(A));
    STEP();
    msg_process_unlock();
}
/* The thread ends: what finds after it, as a destructor of the thread's may, goes under the
 * lock. */
static bool ended;
static void ends(void)
{
    in_use[A] = in_use[B] = NOTHING;
    is_told = false;
    at_thread_end(NULL);
    ended = true;
    unsigned open = opened[0] + opened[1] + opened[2] + opened[3];
    __CPROVER_assert(!own && !seats && open == spare_count, "its seat is given back");
}
/* All rounds of its destructors, each of which may find after the layer's own; but not for the
 * first time after the first. */
static void ends_in_rounds(bool has_found)
{
    for (int round = 0; round < PTHREAD_DESTRUCTOR_ITERATIONS; round++) {
        if (is_told) ends();
        if ((round && !has_found) || !any_bool()) continue;
        finds(any_bool(), false);
        has_found = has_found || stays_on || is_unsure; /* it was answered */
    }
    __CPROVER_assert(!stays_on && !stays, "who is gone has no entry left");
}
/* The thread rests, or goes away. */
static void rests(void)
{
    bool goes = any_bool();
    in_use[A] = in_use[B] = NOTHING;
    SAY("rests: and goes", goes, 0);
    uint32_t fault = goes ? msg_process_away() : msg_process_rest();
    __CPROVER_assert(fault == MSG_DONE, "a rest is made");
    other(false);
}
#ifdef FORKS
static void invite(void)
{
    taken[GUESTS] = opened[GUESTS] = true;
    push(&seats, &pool[GUESTS]);
    guests.thread = 7;
}
/* All that was done before is as it was. The child has nobody but its own thread. */
static void asks_alone(void)
{
    uint64_t seen = 77, thread = 77;
    bool is_held = stays_on && stay.changes < made;
    uint32_t fault = msg_process_seen_by_all(&seen, &thread);
    SAY("asks in the child: seen, thread", seen, thread);
    if (is_unsure) return;
    __CPROVER_assert(!fault && seen == (is_held ? stay.changes : made), "CHILD: nobody else holds");
    __CPROVER_assert(thread == (is_held ? cv_number : 0), "CHILD: by its own number");
}
static void forks_once(void)
{
    msg_runtime *r;
    bool locks = any_bool();
    if (locks && msg_process_lock(&r)) return;
    other(false);
    before_fork();
    __CPROVER_assert(holder == 1, "RULE 5: the lock is held");
    __CPROVER_assert(locks || !inside[GUESTS], "RULE 5: no other sender is in a call");
    is_alone = any_bool();
    SAY("forks: with the lock, and goes on as the child", locks, is_alone);
    if (!is_alone) in_parent();
    else {
        bool stays_open = inside[GUESTS];
        cv_number = 2;
        in_child();
        __CPROVER_assert(!opened[GUESTS] || locks, "CHILD: the others' senders are closed");
        __CPROVER_assert(opened[GUESTS] || !stays_open, "CHILD: but for one that is in a call");
    }
    if (locks) msg_process_unlock();
    if (is_alone) asks_alone();
}
static void guest_leaves(void)
{
    struct seat **at = &seats;
    while (*at && *at != &pool[GUESTS]) at = &(*at)->next;
    __CPROVER_assert(!*at == is_alone, "the guest has its seat, but in a child");
    if (*at) pull(&pool[GUESTS]);
    const struct stay *one = stays;
    while (one && one != &guests) one = one->next;
    __CPROVER_assert(!one == (is_alone || !guest_stays), "and its entry");
    taken[GUESTS] = opened[GUESTS] = inside[GUESTS] = false;
}
#endif
/* One sender more is spare, as of a thread that has ended. */
static void spares_one(void)
{
    if (spare_count >= SPARES || take(MSG_WAITS)) return;
    struct seat *seat = new_seat();
    if (seat && opens(seat)) push_spare(seat);
    else if (seat) free_seat(seat);
    give();
}
/* Each way of a find or a send; and what a thread does between them. */
static void any_way(bool in_handler)
{
    if (any_bool()) shim_sends();
    else if (any_bool()) finds(true, in_handler);
    else if (any_bool()) finds_all(in_handler);
    else if (in_handler || any_bool()) finds(false, in_handler);
    else if (any_bool()) changes();
    else if (any_bool()) rests();
    else if (any_bool()) ends();
    else spares_one();
}

static int depth, signals;
static void STEP(void)
{
#if SIGNALS
    if (depth < DEPTH && signals < SIGNALS && any_bool()) {
        depth++; signals++;
        SAY("a signal", depth, signals);
#if defined ANY
        any_way(true);
#elif defined SHIM
        shim_sends();
#else
        finds(true, true);
#endif
        depth--;
    }
#endif
}

static int one_run(void)
{
    started = true;
#if defined ANY
    for (int i = 0; i < ANY; i++) any_way(false);
#elif defined SHIM
    if (any_bool()) spares_one();
    shim_sends(); shim_sends();
#elif defined CHANGES
    finds(true, false); changes(); finds(true, false);
#elif defined ENDS
    if (any_bool()) finds(any_bool(), false);
    ends_in_rounds(stays_on || is_unsure);
#elif defined RESTS
    finds(any_bool(), false); rests(); finds(any_bool(), false);
    for (int i = 0; i < 4; i++) other(false); /* a change, and what is told after it */
#elif defined FORKS
    invite();
    if (any_bool()) finds(true, false);
    if (any_bool()) rests();
    forks_once();
    finds(any_bool(), false);
    if (is_alone) changes();
    rests();
    if (is_alone) asks_alone();
#else
    finds(true, false); finds(true, false);
#endif
#ifdef FORKS
    guest_leaves();
#endif
    __CPROVER_assert(!ended || !own, "a thread that ends has no sender from then on");
    __CPROVER_assert(seats == own && (!own || !own->next), "a thread has one sender");
    unsigned many = taken[0] + taken[1] + taken[2] + taken[3];
    __CPROVER_assert(many == spare_count + (own != NULL), "each open sender is its own or spare");
    __CPROVER_assert(many <= 1 + SPARES, "and opens no more than one, and spare ones");
    bool is_shown = !own || is_away || msg_process_own.sender == &own->sender;
    __CPROVER_assert(is_shown, "a thread goes on to use its sender");
    bool is_out = !inside[0] && !inside[1] && !inside[2] && !inside[3];
    __CPROVER_assert(is_out && !holds && holder != 1, "at the end nothing is held");
    return 0;
}

static void afresh(void)
{
    msg_process_words.at = words;
    msg_process_own = (struct msg_process_thread){.sender = &nobody};
    in_use[A] = in_use[B] = NOTHING;
}
int main(int argc, char **argv) { return every_choice(argc, argv, afresh, one_run); }
