/* One runtime for the whole process, with its lock and a sender for each
 * thread: for hosts whose threads send without setup.
 *
 * msg_runtime.h is the reference of what a call returns. This header and
 * trusted/process/msg_process.c, which is linked with the library, are
 * TRUSTED. What they rest on, and the reason for each order of memory, stands
 * in the latter.
 *
 *     msg_runtime *runtime;
 *     uint32_t fault = msg_process_start(NULL);
 *     if (!fault) fault = msg_process_lock(&runtime);
 *     if (!fault) {
 *         fault = msg_make_root_class(runtime, SHAPE);
 *         msg_process_unlock();
 *     }
 *     if (!fault) fault = msg_process_find(SHAPE, false, AREA, &imp);
 *
 * The runtime is never closed: it lasts as long as the process. Don't pass it
 * to msg_close.
 *
 * Threads: any. A sender is in use from a thread's first find until the thread
 * ends; msg_process_find_at_once alone gives it none. If all the config's
 * senders are in use, or there is no memory, a thread that needs one finds
 * under the lock until it ends. So does a thread that has given its sender back
 * in a destructor (pthread_key_create). Rule: make a thread's first find before
 * the second round of its destructors.
 *
 * The end of a thread that has found takes the lock. Rule: join no thread while
 * you hold it.
 *
 * A plug-in that is a shared object may find, too, if it reaches its program's
 * copy of the library. Either link both with the shared library (pkg-config's
 * yeldrost). Or link the program with the static one (yeldrost-static) and
 * -rdynamic, and the plug-in with neither: it takes yeldrost's --cflags alone.
 * If it reaches a copy of its own, its finds return MSG_CLOSED. An object that
 * has a copy inside is never unloaded (-z nodelete, as yeldrost-static says),
 * since a thread's end calls it.
 *
 * Fork: the child has the forking thread, its sender and the runtime, as they
 * were. The others' senders are closed, and msg_process_seen_by_all counts the
 * child's own threads alone. The child may find, change and start threads. Fork
 * in no handler of a signal. If the forking thread holds the lock, the child
 * holds it too. Then a sender that was in a find may never be free again there.
 *
 * Handlers of signals find by msg_process_find_at_once, which waits for
 * nothing. If it returns MSG_LOCK_HELD, let the handler put the work off until
 * after it, or block the signal while the lock is held. msg_process_find and
 * the locks also return MSG_LOCK_HELD to a handler whose own thread has the
 * lock, and are right in one otherwise. But they may wait for a thread that
 * wants memory: so don't call them if malloc may be what the handler
 * interrupted. A handler ends by its return, and no thread is cancelled
 * asynchronously.
 *
 * Rule: start while the process has fewer than 32 thread keys
 * (pthread_key_create). With more, glibc takes memory in a thread's first find,
 * also by msg_process_find_at_once.
 *
 * msg_runtime.h promises nothing of its calls in handlers and in a forked
 * child: that they work there is tested (tools/test/process), not proved. */
#ifndef MSG_PROCESS_H
#define MSG_PROCESS_H

#include "msg_runtime.h"

#ifdef __cplusplus
extern "C" {
#endif

/* ---- starting, and the lock ---- */

/* Opens the runtime of the process, once. With NULL all is the default.
 *
 * Faults: MSG_ALREADY_OPEN at a second time, MSG_LOCK_HELD if the calling
 * thread holds the lock, else those of msg_open. MSG_NO_MEMORY also comes if
 * the process has no thread key left. */
uint32_t msg_process_start(const msg_config *config);
/* Takes the lock, and gives the runtime, to ask and to change it. Open no
 * sender of your own on it: msg_process_seen_by_all wouldn't count that, and
 * msg_seen_by_all sees no msg_process_rest.
 *
 * Faults: MSG_CLOSED before the start, and MSG_LOCK_HELD if the calling thread
 * holds the lock. Then there is nothing to unlock. */
uint32_t msg_process_lock(msg_runtime **runtime);
/* Gives the lock back; by the thread that took it. */
void msg_process_unlock(void);
/* Caches what the lookup of a key finds by now, and notes it for the calling
 * thread, so that no thread waits for the lock to find it. The calling thread
 * holds the lock, and has made its change. If it has no sender, nothing is
 * cached. */
void msg_process_cache(uint64_t key);

/* ---- when old code can go ---- */

/* The calling thread rests: it is in no method that a find returned, and keeps
 * no number to call later. Call it between two events, not in a handler.
 *
 * Faults: MSG_LOCK_HELD under the lock.
 * Cost: two loads if nothing has changed since the thread's last rest, else the
 * lock once. */
uint32_t msg_process_rest(void);
/* A rest before the thread waits for long. Until its next find, which takes the
 * lock, no host waits for it. A find in a handler of a signal is one, too, also
 * if the thread never found before. Hosts then wait until the thread rests, is
 * away again, or ends. So block such signals in threads that don't rest. Or let
 * the wait end at the signal, and call this again.
 *
 * Faults: MSG_CLOSED before the start, and MSG_LOCK_HELD under the lock. */
uint32_t msg_process_away(void);
/* Tells when old code can go. No thread is in a method that a find returned and
 * one of the first `changes` changes took away, and no find returns it any
 * more. What msg_lookup or msg_methods returned doesn't count: don't call it
 * after the unlock, but find it then.
 *
 * `changes` is the least count of changes at which a thread rested last. A
 * thread's first find, also its first after it was away, counts as a rest. The
 * calling thread counts, too, and one without a sender. A thread that has
 * ended, is away or never found anything doesn't count; if none counts, it is
 * the count of all changes. `thread` is the kernel's number of the thread that
 * rested at the least count, or 0 if all have rested since the last change.
 *
 * Faults: MSG_NONE if some thread's end can't be told: the C library had no
 * memory for that, or a thread that had found before its destructors found
 * something later than in their second round. It is then returned until the
 * process ends, and no more old code may go. MSG_CLOSED before the start, and
 * MSG_LOCK_HELD under the lock. A thread that broke the rule of first finds
 * above may be named after its end, or end the process here.
 * Cost: a walk over the threads that count, under the lock. */
uint32_t msg_process_seen_by_all(uint64_t *changes, uint64_t *thread);

/* ---- finding, from any thread ---- */

enum { MSG_WAITS_NOT, MSG_WAITS, MSG_WAITS_A_WHILE };
/* The inline calls below go on here if the first note at the key's place
 * doesn't tell what is found, or wasn't asked. The second one is asked first.
 * `waits` says whether the call waits for the lock. A while is a thousand waits
 * of a millisecond each by the wall clock, so about a second, or longer on a
 * loaded machine or if that clock is set back. It ends if a fork has the lock.
 *
 * Faults: those of msg_process_find, and MSG_LOCK_HELD if the lock isn't to be
 * had so. */
uint32_t msg_process_find_slowly(uint64_t key, unsigned waits, uint32_t *imp);
/* The same for a caller who has asked the second note, too. */
uint32_t msg_process_find_unnoted(uint64_t key, unsigned waits, uint32_t *imp);
/* Finds several lookups at one version, as msg_find_all does, by the calling
 * thread's sender. `imps` has `count` entries.
 *
 * Faults: those of msg_find_all, and MSG_LOCK_HELD. After a fault what is in
 * `imps` means nothing. */
uint32_t msg_process_find_all(const msg_lookup_row *lookups, size_t count,
                              uint32_t *imps, size_t *place);

/* What the inline call reads. `turns`: how often the thread was on the slow
 * way. `sender`: its own; or one without notes, if the thread has none or is in
 * a call with its own. */
struct msg_process_thread {
    const msg_sender *sender;
    uint64_t turns;
};
/* Where the words are that threads share (msg_words): before the start `none`.
 * It has a cache line of its own. */
struct msg_process_words {
    const uint64_t *at;
    uint64_t none, spare[6];
};
#ifndef MSG_TLS
/* "local-exec" takes an instruction less, in what is linked into a program
 * alone. */
#define MSG_TLS "initial-exec"
#endif
/* clang-format off */
extern __thread __attribute__((tls_model(MSG_TLS)))
struct msg_process_thread msg_process_own;
/* clang-format on */
extern struct msg_process_words msg_process_words;

#ifdef __cplusplus
}
#endif

/* ---- inline: finding ---- */

/* The stamp of a note's class. The words are loaded after the sender that has
 * the note: one with notes is shown after they are. */
static inline uint64_t msg_process_stamp(const msg_note *note)
{
    __atomic_signal_fence(__ATOMIC_SEQ_CST);
    return msg_stamp_of(
        __atomic_load_n(&msg_process_words.at, __ATOMIC_ACQUIRE), note);
}

/* msg_process_find of a key, for a host that keeps 2 * number + meta times
 * MSG_KEY_OF_SLOT with each class, and adds msg_key(0, sel) to it. The first
 * note at the key's place is asked inline. A handler of a signal may come
 * between any two of the loads, and find: then `turns` is another after them.
 *
 * Faults: those of msg_process_find. */
static inline uint32_t msg_process_find_key(uint64_t key, uint32_t *imp)
{
    uint64_t turns = __atomic_load_n(&msg_process_own.turns, __ATOMIC_RELAXED);
    __atomic_signal_fence(__ATOMIC_SEQ_CST);
    const msg_sender *sender =
        __atomic_load_n(&msg_process_own.sender, __ATOMIC_RELAXED);
    const msg_note *note = MSG_NOTE_OF(sender, key); /* as msg_recall_key */
    uint64_t stamp = msg_process_stamp(note);
    uint64_t said = note->count >= stamp ? msg_said(note, key) : MSG_SAID_NONE;
    uint32_t found = said < MSG_SAID_LONG    ? (uint32_t)said
                     : said == MSG_SAID_LONG ? note->imp
                                             : 0;
    __atomic_signal_fence(__ATOMIC_SEQ_CST);
    bool is_same =
        __atomic_load_n(&msg_process_own.turns, __ATOMIC_RELAXED) == turns;
    if (!found || !is_same) return msg_process_find_slowly(key, MSG_WAITS, imp);
    MSG_TEST(
        found == msg_recall(sender, MSG_SLOT_OF(key), MSG_SEL_OF(key), stamp) ||
        __atomic_load_n(&msg_process_own.turns, __ATOMIC_RELAXED) != turns);
    *imp = found;
    return MSG_DONE;
}

/* Finds a message's implementation (objc_msg_lookup): what a lookup gives after
 * all changes that had returned, and perhaps later ones. `imp` is set to its
 * number, or to 0, forwarding.
 *
 * Faults: MSG_CLOSED before the start, MSG_NO_CLASS, MSG_NO_SELECTOR, and
 * MSG_LOCK_HELD if it misses while the calling thread holds the lock. Don't
 * rely on a hit there: under the lock call msg_lookup. Don't call its result
 * after the unlock: msg_process_seen_by_all doesn't count it. */
static inline uint32_t msg_process_find(uint32_t number, bool meta,
                                        uint32_t sel, uint32_t *imp)
{
    uint32_t slot = msg_slot(number, meta);
    if (slot == MSG_SLOTS) return MSG_NO_CLASS;
    return msg_process_find_key(msg_key(slot, sel), imp);
}

/* msg_process_find that never waits and takes no memory. It gives the thread no
 * sender, even if one is spare, and brings back none that the thread had before
 * it was away. Until the thread finds by another call, each find here wants the
 * lock.
 *
 * Faults: those of msg_process_find, and MSG_LOCK_HELD also if it misses while
 * any thread has the lock. */
static inline uint32_t msg_process_find_at_once(uint32_t number, bool meta,
                                                uint32_t sel, uint32_t *imp)
{
    uint32_t slot = msg_slot(number, meta);
    if (slot == MSG_SLOTS) return MSG_NO_CLASS;
    return msg_process_find_slowly(msg_key(slot, sel), MSG_WAITS_NOT, imp);
}

#endif
