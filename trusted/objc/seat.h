/* The way of a send that hits, without the lock: what the thread's own sender has noted. Another
 * send goes on by msg_process_find_unnoted, or by msg_process_find_slowly. Trusted: that a note is
 * of its key and as new as its stamp, in whatever order other threads and handlers of signals come
 * between. */
#ifndef MSG_OBJC_SEAT_H
#define MSG_OBJC_SEAT_H

#include "shim.h"

/* By their numbers; number 0 is forwarding, and NULL. Address space until a number is used, so that
 * it never moves. */
extern __attribute__((visibility("hidden"))) _Atomic(IMP) shim_functions[MOST_IMPS + 1];

static inline IMP shim_function(uint32_t imp)
{
    return atomic_load_explicit(&shim_functions[imp], memory_order_acquire);
}

/* A word of a note, as the instructions of x86-64 have it. Two of them are spelled longer: so the
 * jump behind them is kept within a line by prefixes, not by an instruction more. */
#define AT_NOTE "%P[word](%[sender],%[place],4)"
#define LONGER "%{disp32%} "
/* clang-format off */
#define NOTE(field) [sender] "r"(sender), [place] "r"((uint64_t)(uint16_t)key), \
                    [word] "i"(offsetof(msg_sender, notes) + offsetof(msg_note, field))
/* clang-format on */

/* The library says the same, unless a handler's note is there by now. */
static inline bool shim_is_said(const msg_sender *sender, const msg_note *note, uint64_t key,
                                uint64_t stamp, uint64_t said)
{
    return said >= MSG_SAID_LONG ||
           msg_recall(sender, MSG_SLOT_OF(key), MSG_SEL_OF(key), stamp) == said ||
           msg_said(note, key) != said || note->count < stamp;
}

/* What a note says of a lookup (msg_said), by all changes that had returned. First it is seen that
 * the note isn't older than the stamp of its class; then one load has the lookup and the number. So
 * a handler of a signal that notes another there comes before both or after both; or what is said
 * was found by it, just now (msg_stamp_of). */
static inline uint64_t shim_said_in(const msg_sender *sender, const msg_note *note, uint64_t key)
{
    uint64_t stamp = msg_process_stamp(note);
    if (__builtin_expect(note->count < stamp, 0)) return UINT64_MAX;
    atomic_signal_fence(memory_order_seq_cst);
    uint64_t says = msg_said(note, key);
    MSG_TEST(shim_is_said(sender, note, key, stamp, says));
    return says;
}

/* The same of the second note at the place of a class and a selector. */
static inline uint64_t shim_said_second(Class class_, SEL sel)
{
    const msg_sender *sender = __atomic_load_n(&msg_process_own.sender, __ATOMIC_RELAXED);
    uint64_t key = __atomic_load_n(&class_->key, __ATOMIC_ACQUIRE) + sel->name.key;
    return shim_said_in(sender, MSG_SECOND_NOTE_OF(sender, key), key);
}

/* The same of the first one. Until a class was initialized its key is 0, and the sum is that of
 * class number 0, which isn't made. */
static inline uint64_t shim_said_at(Class class_, SEL sel)
{
    const msg_sender *sender = __atomic_load_n(&msg_process_own.sender, __ATOMIC_RELAXED);
    uint64_t key = __atomic_load_n(&class_->key, __ATOMIC_ACQUIRE) + sel->name.key;
    const msg_note *note __attribute__((unused)) = MSG_NOTE_OF(sender, key);
#ifdef __x86_64__ /* the same, three instructions shorter: the note's place is in each load of it */
    uint64_t stamp, said = key;
    bool is_old;
    __asm__ volatile(LONGER "movq " AT_NOTE ", %0" : "=r"(stamp) : NOTE(stamp) : "memory");
    stamp += (uintptr_t)msg_process_words.at;
    stamp = __atomic_load_n((const uint64_t *)stamp, __ATOMIC_SEQ_CST);
    /* clang-format off */
    __asm__ volatile(LONGER "cmpq %1, " AT_NOTE
                     : "=@ccb"(is_old) : "r"(stamp), NOTE(count) : "memory");
    /* clang-format on */
    if (__builtin_expect(is_old, 0)) return UINT64_MAX;
    __asm__ volatile("subq " AT_NOTE ", %0" : "+r"(said) : NOTE(seal) : "cc", "memory");
    MSG_TEST(shim_is_said(sender, note, key, stamp, said));
#else
    uint64_t said = shim_said_in(sender, note, key);
#endif
    return said;
}

/* All of the note that says just this, the first or the second one, for what is another word than
 * its seal: a handler that found something in between raised `turns`. False where it is another
 * note by now, or an old one. */
static __attribute__((noinline, unused)) bool shim_note_of(uint64_t said, Class class_, SEL sel,
                                                           msg_note *all)
{
    uint64_t turns = __atomic_load_n(&msg_process_own.turns, __ATOMIC_RELAXED);
    atomic_signal_fence(memory_order_seq_cst);
    const msg_sender *sender = __atomic_load_n(&msg_process_own.sender, __ATOMIC_RELAXED);
    uint64_t key = __atomic_load_n(&class_->key, __ATOMIC_ACQUIRE) + sel->name.key;
    const msg_note *note = MSG_NOTE_OF(sender, key);
    if (msg_said(note, key) > MSG_SAID_NONE) note = MSG_SECOND_NOTE_OF(sender, key);
    bool is_of = note->count >= msg_process_stamp(note) && msg_said(note, key) == said;
    *all = *note;
    atomic_signal_fence(memory_order_seq_cst);
    return is_of && __atomic_load_n(&msg_process_own.turns, __ATOMIC_RELAXED) == turns;
}

/* Whether the first note says what is found: the method's number, or 0 where there is none. */
static inline bool shim_note(Class class_, SEL sel, uint32_t *number)
{
    msg_note note;
    uint64_t said = shim_said_at(class_, sel);
    *number = said < MSG_SAID_LONG ? (uint32_t)said : 0;
    if (__builtin_expect(said != MSG_SAID_LONG, 1)) return said <= MSG_SAID_NONE;
    if (shim_note_of(said, class_, sel, &note)) *number = note.imp;
    return *number != 0;
}

#endif
