/* The runtime of a process: its lock, a sender for each thread, fork, and handlers of signals
 * (include/msg_process.h).
 *
 * Trusted with what msg_runtime.h asks of a host: one call on the runtime at a time, one on a
 * sender, each sender for one thread; and with what is said in msg_process.h of threads, forks and
 * handlers. tools/check/trusted_c runs each order of signals and changes over these lines, within
 * bounds. Its rules:
 *
 *  1. Calls that take the runtime are made between `take` and `give`. Nothing of the caller's is
 *     called there.
 *  2. A note is gone by where its count isn't below the stamp of its class, as the library's own
 *     recall does: by one sequentially consistent load, in the words that msg_words tells of. They
 *     stay, since the runtime is never closed; and they are stored before `started`, so who has a
 *     sender, and so notes, has them. A release and an acquire: who has none may load a word, too.
 *  3. A sender is in one call at a time. Its thread hides it from `msg_process_own` before, so a
 *     handler in the middle of a call finds nobody's there, recalls nothing that is half written,
 *     and asks under the lock. Where it may not be shown, that is one exchange: a handler in a
 *     first find may show it. `turns` goes up before, so a find that a handler interrupted between
 *     two loads starts again. All of this is one thread's: fences of signals do.
 *  4. A handler doesn't wait for its own thread: `holds` is set before the lock is taken and
 *     cleared after it is given. In glibc and musl a lock may be taken in a handler that
 *     interrupted no use of it. But who holds it may want memory, and the handler may have
 *     interrupted malloc: hence finds that don't wait, or wait for a while.
 *  5. A fork comes while no other sender is in a call without the lock, so that the child may close
 *     them: a thread stores `asks` and then loads `forks`, a fork the other way about. Both are
 *     sequentially consistent, so one sees the other. `asks` is cleared by a release: the call's
 *     stores are before it. So who `asks` after the wait is about to see the fork, and in no call.
 *     The fork gives the lock while it waits, since a handler in such a call may want it.
 *  6. A fork that has the lock waits for the C library's memory, which a handler's thread may have.
 *     So from `still` on a find for a while doesn't wait for the fork. No change is half made then.
 *  7. A thread's first find takes a seat that is spare, or maps and opens one. It wants nothing of
 *     malloc's, since it may be a handler's: what the library takes for a sender lies in the seat
 *     (memory.c). (glibc takes some, if 32 thread keys came before ours.) A thread has one try, and
 *     none waits for a number.
 *  8. `started` is stored by a release, and loaded by an acquire before all else: who goes on has
 *     the key of threads.
 *  9. A thread joins `stays` under the lock, before its first find returns. Its entry has the count
 *     of changes at its last rest. It leaves at its end, and while it is away; its sender is hidden
 *     then, so its next find takes the lock and joins again. A find returns what is right after all
 *     changes that had returned before it, so one that begins after a rest returns nothing older
 *     than that count.
 * 10. Destructors that come after `at_thread_end` may find. So it is to be called in the next of
 *     their rounds, too, and ends then what they began; but MOST_ENDS times, so that there is such
 *     a round also where a thread's first find is in one of the first round. Of a find after the
 *     last call nobody is told the end: then no old code is told as left by all. */
#define _GNU_SOURCE 1 /* for the kind of lock, and for MAP_ANONYMOUS */
#include "memory.h"
#include "msg_process.h"
#include <limits.h>
#include <sched.h>
#include <stdatomic.h>
#include <sys/mman.h>
#include <sys/syscall.h>
#include <time.h>
#include <unistd.h>

#define PARTS_OF(key) MSG_SLOT_OF(key) / 2, MSG_SLOT_OF(key) % 2, MSG_SEL_OF(key)
#ifndef MSG_SPARES
#define MSG_SPARES 0
#endif
enum { SPARES = MSG_SPARES, MOST_ENDS = PTHREAD_DESTRUCTOR_ITERATIONS - 1 };
enum { SLICE = 1000000, SLICES = 1000 }; /* of a wait for a while: nanoseconds, and how many */

/* In one list or none: `at` is where it is named there. What is written of each comes first, with
 * the first notes, and so takes a page of memory and no more. */
struct seat {
    _Alignas(64) struct seat *next, **at;
    atomic_bool asks;
    _Alignas(64) char room[MSG_ROOM_SIZE]; /* the library's, for the sender */
    _Alignas(64) msg_sender sender;
};
#define SEAT_OF(of) ((struct seat *)(void *)((char *)(of)-offsetof(struct seat, sender)))
/* A thread that may be in code that a find returned, and the count of changes at its last rest. */
struct stay {
    struct stay *next, **at;
    uint64_t changes, thread;
};

_Alignas(64) struct msg_process_words msg_process_words = {.at = &msg_process_words.none};
static _Alignas(64) msg_sender nobody; /* closed, without notes */
__thread struct msg_process_thread msg_process_own = {.sender = &nobody};

/* Who has it needs it for less than a microsecond. So a thread tries it for a while before it
 * sleeps, where the C library has such a lock. */
#ifndef PTHREAD_ADAPTIVE_MUTEX_INITIALIZER_NP
#define PTHREAD_ADAPTIVE_MUTEX_INITIALIZER_NP PTHREAD_MUTEX_INITIALIZER
#endif
static pthread_mutex_t lock = PTHREAD_ADAPTIVE_MUTEX_INITIALIZER_NP;
/* Under the lock. */
static msg_runtime runtime = MSG_RUNTIME_INIT;
static struct seat *seats, *spares; /* threads', and nobody's, which are open */
static struct stay *stays;
static bool is_unsure;          /* a find returned in a thread whose end nobody is told of */
static atomic_uint spare_count; /* read without it */

static atomic_bool started;
static atomic_uint forks; /* that are coming */
static atomic_bool still; /* a fork has the lock, and no change is half made */
static pthread_key_t key;
static __thread struct seat *own;
static __thread volatile bool holds, tried, kept; /* `kept`: the lock was held before the fork */
static __thread struct stay stay;
static __thread volatile bool stays_on, is_away, is_over; /* among `stays`; as said; rule 10 */
static __thread unsigned end_count;                       /* how often its end was told */

/* POSIX has it, and a source that includes this may have asked for less. */
int pthread_mutex_timedlock(pthread_mutex_t *, const struct timespec *);

static int lock_for_a_while(void)
{
    int failed = pthread_mutex_trylock(&lock);
    for (int slice = 0; failed && slice < SLICES && !atomic_load(&still); slice++) {
        struct timespec end;
        timespec_get(&end, TIME_UTC);
        end.tv_nsec += SLICE;
        end.tv_sec += end.tv_nsec / 1000000000;
        end.tv_nsec %= 1000000000;
        failed = pthread_mutex_timedlock(&lock, &end);
    }
    return failed;
}

static inline int lock_by(unsigned waits)
{
    return waits == MSG_WAITS           ? pthread_mutex_lock(&lock)
           : waits == MSG_WAITS_A_WHILE ? lock_for_a_while()
                                        : pthread_mutex_trylock(&lock);
}

static inline uint32_t take(unsigned waits)
{
    if (holds) return MSG_LOCK_HELD;
    holds = true;
    if (lock_by(waits)) {
        holds = false;
        return MSG_LOCK_HELD;
    }
    return MSG_DONE;
}

/* A find waits once: not again after a wait in vain. */
static inline uint32_t take_once(unsigned *waits)
{
    uint32_t fault = take(*waits);
    if (fault) *waits = MSG_WAITS_NOT;
    return fault;
}

static void give(void)
{
    pthread_mutex_unlock(&lock);
    holds = false;
}

/* ---- seats, under the lock ---- */

static void push(struct seat **list, struct seat *seat)
{
    seat->next = *list;
    seat->at = list;
    if (seat->next) seat->next->at = &seat->next;
    *list = seat;
}

static void pull(const struct seat *seat)
{
    *seat->at = seat->next;
    if (seat->next) seat->next->at = seat->at;
}

static void push_spare(struct seat *seat)
{
    push(&spares, seat);
    atomic_fetch_add(&spare_count, 1);
}

static struct seat *pop_spare(void)
{
    struct seat *seat = spares;
    if (seat) pull(seat), atomic_fetch_sub(&spare_count, 1);
    return seat;
}

static uint64_t own_number(void) { return (uint64_t)syscall(SYS_gettid); }

/* Zeros, which take memory page by page as notes are written: most threads need a few. */
static struct seat *new_seat(void)
{
    int how = MAP_PRIVATE | MAP_ANONYMOUS;
    void *seat = mmap(NULL, sizeof(struct seat), PROT_READ | PROT_WRITE, how, -1, 0);
    return seat == MAP_FAILED ? NULL : seat;
}

static void free_seat(struct seat *seat) { munmap(seat, sizeof *seat); }

/* Whether the seat's sender is opened, in the seat's own memory. */
static bool opens(struct seat *seat)
{
    struct msg_room before = msgroom;
    msgroom = (struct msg_room){.at = seat->room};
    bool is_open = !msg_sender_open(&runtime, &seat->sender);
    msgroom = before;
    return is_open;
}

static struct seat *closed(struct seat *seat)
{
    struct msg_room before = msgroom;
    msgroom = (struct msg_room){.at = seat->room};
    msg_sender_close(&runtime, &seat->sender);
    msgroom = before;
    return seat;
}

/* In the child of a fork. One that may be in a call stays out: of a fork that didn't wait alone. */
static void close_others(void)
{
    struct seat *all = seats;
    seats = NULL;
    for (struct seat *seat = all, *next; seat; seat = next) {
        next = seat->next;
        if (seat == own) push(&seats, seat);
        else if (!kept || !atomic_load(&seat->asks)) free_seat(closed(seat));
    }
    is_unsure = is_unsure && is_over; /* of the forking thread, perhaps */
    stays = stays_on ? &stay : NULL;
    stay.next = NULL;
    stay.at = &stays;
    stay.thread = own_number();
}

/* A seat is another thread's next, with what is noted there, which is right for any. One that is
 * closed is returned, to be freed without the lock. */
static struct seat *stand_up(void)
{
    struct seat *seat = own;
    if (!seat) return NULL;
    pull(seat);
    own = NULL;
    if ((int)atomic_load(&spare_count) >= SPARES) return closed(seat);
    push_spare(seat);
    return NULL;
}

/* ---- threads that may be in old code, under the lock ---- */

static void end_stay(void)
{
    if (!stays_on) return;
    *stay.at = stay.next;
    if (stay.next) stay.next->at = stay.at;
    stays_on = false;
}

static void begin_stay(void)
{
    if (stays_on) return;
    stay.thread = own_number();
    msg_change_count(&runtime, &stay.changes);
    stay.next = stays;
    stay.at = &stays;
    if (stay.next) stay.next->at = &stay.next;
    stays = &stay;
    stays_on = true;
}

/* In a thread without a seat. It joins only if its end is told: else its entry would stay. Once
 * that can't be, it doesn't join any more, since it may be too late then. */
static void begin_stay_alone(void)
{
    bool is_told = own || stays_on || (!is_over && !pthread_setspecific(key, &stay));
    if (is_told) begin_stay();
    else is_unsure = is_over = tried = true;
}

/* ---- a thread's seat ---- */

static void show(struct seat *seat)
{
    atomic_signal_fence(memory_order_seq_cst);
    if (seat) __atomic_store_n(&msg_process_own.sender, &seat->sender, __ATOMIC_RELAXED);
    atomic_signal_fence(memory_order_seq_cst);
}

/* For the caller alone until it is shown; NULL where there is none, or it is in use already. */
static struct seat *hide(void)
{
    __atomic_store_n(&msg_process_own.turns, msg_process_own.turns + 1, __ATOMIC_RELAXED);
    bool shown = __atomic_exchange_n(&msg_process_own.sender, &nobody, __ATOMIC_SEQ_CST) != &nobody;
    return shown ? own : NULL;
}

/* The same in fewer instructions, of one that was seen to be shown: a handler that came meanwhile
 * has shown it again. */
static inline struct seat *hide_shown(const msg_sender *sender)
{
    msg_process_own.turns++;
    atomic_signal_fence(memory_order_seq_cst);
    __atomic_store_n(&msg_process_own.sender, &nobody, __ATOMIC_RELAXED);
    atomic_signal_fence(memory_order_seq_cst);
    return SEAT_OF(sender);
}

static void at_thread_end(void *unused)
{
    (void)unused;
    tried = true;
    is_over = is_over || ++end_count >= MOST_ENDS || pthread_setspecific(key, &stay);
    if (!own && !stays_on && !holds) return; /* since the last round */
    take(MSG_WAITS); /* or the thread ends with the lock, which is given below */
    hide();          /* for good: until now a handler may have come back, and shown it */
    struct seat *seat = stand_up();
    end_stay();
    give();
    if (seat) free_seat(seat);
}

/* The thread's seat at its first find; or NULL. */
static struct seat *sit_down(unsigned *waits)
{
    if (tried || holds) return NULL;
    if (__atomic_exchange_n(&tried, true, __ATOMIC_SEQ_CST)) return NULL;
    bool is_new = !atomic_load(&spare_count);
    struct seat *seat = is_new ? new_seat() : NULL, *left = NULL;
    if (is_new && !seat) return NULL;
    if (take_once(waits)) {
        if (seat) free_seat(seat);
        tried = false;
        return NULL;
    }
    if (!is_new) seat = pop_spare();
    else if (!opens(seat)) left = seat, seat = NULL;
    tried = is_new || seat; /* or another thread was quicker */
    own = seat;
    if (own) push(&seats, own);
    if (own && pthread_setspecific(key, &stay)) left = stand_up();
    if (own) begin_stay();
    give();
    if (left) free_seat(left);
    return own;
}

/* The thread's seat at its first find after it was away; or NULL. */
static struct seat *come_back(unsigned *waits)
{
    if (take_once(waits)) return NULL;
    bool is_first = is_away; /* or a handler came back, and has shown the sender */
    is_away = false;
    if (is_first) msg_meet(&runtime, &own->sender);
    begin_stay();
    give();
    return is_first ? own : hide();
}

/* ---- finding ---- */

/* A key; or, where there is a place, several lookups as one. */
struct asked {
    uint64_t key;
    uint32_t *imps;
    const msg_lookup_row *lookups;
    size_t count, *place;
};

static inline uint32_t probe_by(msg_sender *sender, const struct asked *a)
{
    if (!a->place) return msg_probe(sender, PARTS_OF(a->key), a->imps);
    return msg_probe_all(sender, a->lookups, a->count, a->imps, a->count, a->place);
}

static inline uint32_t probe(struct seat *seat, const struct asked *a)
{
    uint32_t answer = MSG_MISSED;
    atomic_store(&seat->asks, true);
    if (!atomic_load(&forks)) answer = probe_by(&seat->sender, a);
    atomic_store_explicit(&seat->asks, false, memory_order_release);
    return answer;
}

/* The thread's seat, which is hidden until it is shown again; or NULL. */
static struct seat *seat_by(unsigned *waits)
{
    struct seat *seat = hide();
    if (seat || !*waits) return seat;
    return own && is_away ? come_back(waits) : sit_down(waits);
}

/* Of a key that is noted. */
static inline __attribute__((unused)) const msg_note *note_of(const msg_sender *sender,
                                                              uint64_t key)
{
    const msg_note *first = MSG_NOTE_OF(sender, key);
    return msg_said(first, key) <= MSG_SAID_NONE ? first : MSG_SECOND_NOTE_OF(sender, key);
}

static inline uint32_t fill(struct seat *seat, uint64_t key, uint32_t *imp)
{
    if (!seat) {
        begin_stay_alone();
        return msg_lookup(&runtime, PARTS_OF(key), imp);
    }
    uint32_t fault = msg_fill(&runtime, &seat->sender, PARTS_OF(key), imp);
    if (!fault)
        MSG_TEST_STAMP(&seat->sender, msg_process_words.at, note_of(&seat->sender, key), key,
                       msg_process_stamp(note_of(&seat->sender, key)));
    return fault;
}

/* All are of one version, since the lock is held. */
static inline uint32_t fill_all(struct seat *seat, const struct asked *a)
{
    size_t count = a->count;
    if (seat)
        return msg_fill_all(&runtime, &seat->sender, a->lookups, count, a->imps, count, a->place);
    begin_stay_alone();
    for (size_t i = 0; i < count; i++) {
        const msg_lookup_row *row = &a->lookups[i];
        uint32_t fault = MSG_BAD_CHANGE;
        if (row->meta <= 1)
            fault = msg_lookup(&runtime, row->number, row->meta, row->sel, &a->imps[i]);
        if (fault) return *a->place = i, fault;
    }
    return MSG_DONE;
}

/* By a seat that is hidden and whose sender has missed, or by none. */
static inline uint32_t find_by(struct seat *seat, const struct asked *a, unsigned waits)
{
    uint32_t answer = MSG_MISSED;
    if (!atomic_load_explicit(&started, memory_order_acquire)) return MSG_CLOSED;
    if (!seat && (seat = seat_by(&waits))) answer = probe(seat, a);
    if (answer == MSG_MISSED && !(answer = take(waits))) {
        answer = a->place ? fill_all(seat, a) : fill(seat, a->key, a->imps);
        give();
    }
    show(seat);
    return answer;
}

static __attribute__((noinline)) uint32_t find_by_seat(struct seat *seat, uint64_t key,
                                                       unsigned waits, uint32_t *imp)
{
    return find_by(seat, &(struct asked){.key = key, .imps = imp}, waits);
}

/* Whether the second note says what is found, by the loads of msg_process_find_key. */
static inline bool second_says(uint64_t key, uint32_t *imp)
{
    uint64_t turns = __atomic_load_n(&msg_process_own.turns, __ATOMIC_RELAXED);
    atomic_signal_fence(memory_order_seq_cst);
    const msg_sender *sender = __atomic_load_n(&msg_process_own.sender, __ATOMIC_RELAXED);
    const msg_note *note = MSG_SECOND_NOTE_OF(sender, key);
    uint64_t stamp = msg_process_stamp(note);
    uint64_t said = note->count >= stamp ? msg_said(note, key) : 0;
    uint32_t found = (uint32_t)said;
    if (__builtin_expect(!said || said >= MSG_SAID_LONG, 0)) {
        if (!said || said > MSG_SAID_NONE) return false; /* 0 is of no lookup */
        found = said == MSG_SAID_LONG ? note->imp : 0;
    }
    atomic_signal_fence(memory_order_seq_cst);
    if (__atomic_load_n(&msg_process_own.turns, __ATOMIC_RELAXED) != turns) return false;
    MSG_TEST(msg_recall(sender, MSG_SLOT_OF(key), MSG_SEL_OF(key), stamp) ==
                 (found ? found : MSG_NOTED_NONE) ||
             __atomic_load_n(&msg_process_own.turns, __ATOMIC_RELAXED) != turns);
    *imp = found;
    return true;
}

__attribute__((noinline)) uint32_t msg_process_find_unnoted(uint64_t key, unsigned waits,
                                                            uint32_t *imp)
{
    const msg_sender *sender = __atomic_load_n(&msg_process_own.sender, __ATOMIC_RELAXED);
    if (__builtin_expect(sender == &nobody, 0)) return find_by_seat(NULL, key, waits, imp);
    struct seat *seat = hide_shown(sender);
    uint32_t answer = probe(seat, &(struct asked){.key = key, .imps = imp});
    if (__builtin_expect(answer == MSG_MISSED, 0)) return find_by_seat(seat, key, waits, imp);
    show(seat);
    return answer;
}

uint32_t msg_process_find_slowly(uint64_t key, unsigned waits, uint32_t *imp)
{
    return second_says(key, imp) ? (uint32_t)MSG_DONE : msg_process_find_unnoted(key, waits, imp);
}

uint32_t msg_process_find_all(const msg_lookup_row *lookups, size_t count, uint32_t *imps,
                              size_t *place)
{
    return find_by(NULL, &(struct asked){0, imps, lookups, count, place}, MSG_WAITS);
}

void msg_process_cache(uint64_t key)
{
    uint32_t imp;
    struct seat *seat = hide();
    if (holds && seat) fill(seat, key, &imp);
    show(seat);
}

/* ---- the lock, for the host ---- */

uint32_t msg_process_lock(msg_runtime **taken)
{
    bool is_open = atomic_load_explicit(&started, memory_order_acquire);
    uint32_t fault = is_open ? take(MSG_WAITS) : (uint32_t)MSG_CLOSED;
    if (!fault) *taken = &runtime;
    return fault;
}

void msg_process_unlock(void)
{
    if (holds) give();
}

/* ---- resting ---- */

/* While the thread is away its sender stays hidden. */
static uint32_t rest(bool goes)
{
    if (!atomic_load_explicit(&started, memory_order_acquire)) return MSG_CLOSED;
    if (take(MSG_WAITS)) return MSG_LOCK_HELD;
    struct seat *seat = hide();
    if (seat) msg_meet(&runtime, &seat->sender);
    msg_change_count(&runtime, &stay.changes);
    if (goes) end_stay();
    is_away = is_away || (goes && seat);
    give();
    if (!goes) show(seat);
    return MSG_DONE;
}

uint32_t msg_process_rest(void)
{
    const uint64_t *words = __atomic_load_n(&msg_process_words.at, __ATOMIC_ACQUIRE);
    bool is_seen = !stays_on || stay.changes == __atomic_load_n(words, __ATOMIC_SEQ_CST);
    return is_seen && !holds ? (uint32_t)MSG_DONE : rest(false);
}

uint32_t msg_process_away(void) { return rest(true); }

uint32_t msg_process_seen_by_all(uint64_t *changes, uint64_t *thread)
{
    uint64_t least, last = 0;
    if (!atomic_load_explicit(&started, memory_order_acquire)) return MSG_CLOSED;
    if (take(MSG_WAITS)) return MSG_LOCK_HELD;
    bool is_told = !is_unsure;
    msg_change_count(&runtime, &least);
    for (struct stay *one = stays; one; one = one->next)
        if (one->changes < least) least = one->changes, last = one->thread;
    give();
    if (!is_told) return MSG_NONE;
    *changes = least;
    *thread = last;
    return MSG_DONE;
}

/* ---- forks ---- */

static void before_fork(void)
{
    kept = holds;
    atomic_fetch_add(&forks, 1);
    if (kept) return; /* without waiting, which the lock would have to be given for */
    take(MSG_WAITS);
    for (struct seat *seat = seats; seat;) {
        bool asks = seat != own && atomic_load(&seat->asks);
        if (asks) {
            give();
            sched_yield();
            take(MSG_WAITS);
        }
        seat = asks ? seats : seat->next; /* after a wait it may be gone */
    }
    atomic_store(&still, true);
}

static void end_fork(void)
{
    atomic_store(&still, false);
    if (!kept) give();
}

static void in_parent(void)
{
    atomic_fetch_sub(&forks, 1);
    end_fork();
}

/* The other threads aren't here. Those that ask by now have seen the fork and are in no call,
 * unless it didn't wait. */
static void in_child(void)
{
    close_others();
    atomic_store(&forks, 0);
    end_fork();
}

uint32_t msg_process_start(const msg_config *config)
{
    static bool has_key, has_forks; /* also of a start that was refused */
    uint32_t fault = take(MSG_WAITS);
    if (fault) return fault;
    has_key = has_key || !pthread_key_create(&key, at_thread_end);
    has_forks = has_forks || !pthread_atfork(before_fork, in_parent, in_child);
    fault = has_key && has_forks ? msg_open(&runtime, config) : (uint32_t)MSG_NO_MEMORY;
    if (!fault) {
        const uint64_t *words;
        msg_words(&runtime, &words); /* which is open */
        __atomic_store_n(&msg_process_words.at, words, __ATOMIC_RELEASE);
        atomic_store_explicit(&started, true, memory_order_release);
    }
    give();
    return fault;
}
