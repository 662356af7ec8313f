/* What CBMC checks of the inline lines of include/msg_runtime.h: for ALL inputs (no loop in them,
 * so no bound). The definitions below are written from crates/msg_reader/specs/Key.antt and
 * Notes.antt and crates/msg_c/specs/Answers.antt, in 128 bits, where nothing wraps: they share no
 * line with the header. */
int cv_lock(int *lock), cv_unlock(int *lock);
#define __atomic_load_n(word, order) \
    ({ __CPROVER_assert((order) == __ATOMIC_SEQ_CST, "as the library's own loads"); *(word); })
#define MSG_LOCK_TYPE int
#define MSG_LOCK(lock) cv_lock(lock)
#define MSG_UNLOCK(lock) cv_unlock(lock)
#include "msg_runtime.h"

typedef unsigned __int128 nat;
#define ANY(type, name) type name /* uninitialized is any value in cbmc */

/* ---- the definitions, as in Key.antt and Notes.antt ---- */
static nat key_of(nat slot, nat sel) { return (slot + 1) * 34359769160u + sel * 8u; }
static nat mark_of(nat imp) { return imp == 0 ? 65535 : imp < 65534 ? imp : 65534; }
static size_t place_of(nat slot, nat sel) { return (size_t)(key_of(slot, sel) / 8u % 8192u); }

/* A handle of just its size, as bytes, since cbmc loads from a place that isn't constant more
 * cheaply there; --nondet-static: of any values. */
static _Alignas(64) unsigned char bytes[sizeof(msg_sender)];
#define SENDER ((msg_sender *)(void *)bytes)

/* The note at a place of the spec: as repr(C) lays out Note, behind the 96 bytes of SenderHandle's
 * and Notes's first fields. */
#define LOAD(type, from) (*(const type *)(const void *)&bytes[from])
static msg_note note_at(size_t at)
{
    size_t from = 96 + 32 * at;
    return (msg_note){LOAD(uint64_t, from), LOAD(uint64_t, from + 8), LOAD(uint32_t, from + 16), 0,
                      LOAD(uint64_t, from + 24)};
}

/* The shared words, of any values. The stamp of a note is one of them. */
static _Alignas(8) unsigned char shared[8 * 16];
#define WORDS ((const uint64_t *)(const void *)shared)
static bool has_stamp(msg_note n) { return n.stamp % 8 == 0 && n.stamp < sizeof shared; }
static uint64_t stamp_of(msg_note n) { return *(const uint64_t *)(const void *)&shared[n.stamp]; }

/* `recalled` of Notes.antt, of a slot below 2^26, in terms of its key: keys_are_the_spec shows that
 * msg_key is key_of, and that place_of is of its low 16 bits. The second notes lie behind the first
 * ones of all places. */
#define NOTHING (~(nat)0) /* None */
static msg_note noted(uint64_t key) { return note_at((key & 65535) / 8); }
static msg_note noted_second(uint64_t key) { return note_at(8192 + (key & 65535) / 8); }
static nat said_by(msg_note n, uint64_t since, uint64_t key)
{
    return n.seal + mark_of(n.imp) == key && n.count >= since ? (nat)n.imp : NOTHING;
}
static nat recalled(uint64_t since, uint64_t key)
{
    nat first = said_by(noted(key), since, key);
    return first != NOTHING ? first : said_by(noted_second(key), since, key);
}
static nat number_of_recalled(nat r) { return r == NOTHING ? 0 : r == 0 ? 4294967296u : r; }

/* What the proved code keeps of a note at the place of a key: IsSealed, and LiesAt of
 * AreNotesOf. */
static bool is_sealed(msg_note n, uint64_t key)
{
    nat sum = n.seal + mark_of(n.imp);
    bool fits = sum < (nat)1 << 64;
    bool lies = n.seal == 0 || sum % 65536u == (key & 65535);
    return fits && lies;
}

/* Keys begin where the slots' first one does: which each msg_key is, and no mark reaches. */
#define IS_KEY(key) (!((key) & 7) && (key) >= MSG_KEY_OF_SLOT)

/* ---- keys ---- */
void keys_are_the_spec(void)
{
    ANY(uint32_t, slot); ANY(uint32_t, sel);
    __CPROVER_assume(slot < MSG_SLOTS);
    uint64_t key = msg_key(slot, sel);
    __CPROVER_assert((nat)key == key_of(slot, sel), "msg_key is key_of, without wrapping");
    __CPROVER_assert(IS_KEY(key), "a multiple of 8, and above all marks");
    nat place = 8 * place_of(slot, sel);
    __CPROVER_assert((uint16_t)key == place, "its low 16 bits tell where its note lies");
    __CPROVER_assert(slot * MSG_KEY_OF_SLOT + msg_key(0, sel) == key, "it adds up");
}
void keys_are_one_to_one(void)
{
    ANY(uint32_t, slot); ANY(uint32_t, sel); ANY(uint32_t, other); ANY(uint32_t, next);
    __CPROVER_assume(slot < MSG_SLOTS && other < MSG_SLOTS);
    if (msg_key(slot, sel) == msg_key(other, next))
        __CPROVER_assert(slot == other && sel == next, "one to one");
}
void keys_are_taken_apart(void)
{
    ANY(uint32_t, slot); ANY(uint32_t, sel);
    __CPROVER_assume(slot < MSG_SLOTS);
    uint64_t key = msg_key(slot, sel);
    __CPROVER_assert(MSG_SLOT_OF(key) == slot, "MSG_SLOT_OF inverts");
    __CPROVER_assert(MSG_SEL_OF(key) == sel, "MSG_SEL_OF inverts");
}

/* ---- slots ---- */
void slots_are_the_spec(void)
{
    ANY(uint32_t, number); ANY(uint32_t, any);
    bool meta = any != 0; /* 0 or 1: cbmc has more bools */
    nat slot = 2 * (nat)number + meta, most = (nat)1 << 26;
    __CPROVER_assert(MSG_SLOTS == most, "2^26 slots");
    nat wanted = slot < most ? slot : most;
    __CPROVER_assert(msg_slot(number, meta) == wanted, "or MSG_SLOTS if beyond");
}

/* ---- recalls: what the first note says, and so what the proved msg_recall answers since the
 * stamp, by its contract ---- */
void recall_key_is_msg_recall(void)
{
    ANY(uint64_t, key); /* any key that msg_key may make, and more */
    __CPROVER_assume(IS_KEY(key) && is_sealed(noted(key), key) && has_stamp(noted(key)));
    const unsigned char *place = (const unsigned char *)MSG_NOTE_OF(SENDER, key);
    const unsigned char *second = (const unsigned char *)MSG_SECOND_NOTE_OF(SENDER, key);
    size_t at = 96 + 32 * ((key & 65535) / 8);
    __CPROVER_assert(place == bytes + at, "MSG_NOTE_OF is the place");
    __CPROVER_assert(second == bytes + 32 * 8192 + at, "MSG_SECOND_NOTE_OF is its second note");
    uint64_t since = stamp_of(noted(key));
    nat all = number_of_recalled(recalled(since, key));
    nat said = number_of_recalled(said_by(noted(key), since, key));
    uint32_t imp = msg_recall_key(SENDER, WORDS, key);
    __CPROVER_assert(imp == (said == MSG_NOTED_NONE ? 0 : said), "msg_recall_key is that note");
    __CPROVER_assert(!imp || imp == all, "what it gives is msg_recall");
    bool is_none = msg_recall_none_key(SENDER, WORDS, key);
    __CPROVER_assert(is_none == (said == MSG_NOTED_NONE), "msg_recall_none_key is NOTED_NONE");
    __CPROVER_assert(!is_none || all == MSG_NOTED_NONE, "which msg_recall is then");
}
/* One load of a seal tells of which lookup it is, and what it says of that. */
void a_seal_says_key_and_number(void)
{
    ANY(uint64_t, key);
    __CPROVER_assume(IS_KEY(key) && is_sealed(noted(key), key));
    msg_note n = noted(key);
    uint64_t said = msg_said(&n, key);
    bool is_of = n.seal + mark_of(n.imp) == key;
    bool is_small = said <= MSG_SAID_NONE;
    __CPROVER_assert(is_small == is_of, "a small number, exactly where it is of the key");
    if (is_of) __CPROVER_assert(said == mark_of(n.imp), "what it says is the mark");
}
void recall_inline_is_by_key(void)
{
    /* any slot: of 2^26 and more nothing is noted */
    ANY(uint32_t, slot); ANY(uint32_t, sel);
    __CPROVER_assume(slot >= 1 << 26 || has_stamp(noted(msg_key(slot, sel))));
    uint32_t got = msg_recall_inline(SENDER, WORDS, slot, sel);
    uint32_t want = slot < 1 << 26 ? msg_recall_key(SENDER, WORDS, msg_key(slot, sel)) : 0;
    __CPROVER_assert(got == want, "msg_recall_inline is msg_recall_key, or 0");
}
/* A blank note satisfies what is assumed above, of each key, and so does a note that is kept: the
 * assumption isn't empty. */
void notes_are_sealed(void)
{
    ANY(uint32_t, slot); ANY(uint32_t, sel); ANY(uint32_t, imp);
    __CPROVER_assume(slot < MSG_SLOTS);
    uint64_t key = msg_key(slot, sel);
    msg_note blank = {0, 0, 0, 0, 0}, kept = {key - mark_of(imp), 0, imp, 0, 0};
    __CPROVER_assert(is_sealed(blank, key) && has_stamp(blank), "a blank note");
    __CPROVER_assert(is_sealed(kept, key), "one of the key");
}
/* Must fail: a note of another place may be just so much below the key. */
void a_note_of_any_place(void)
{
    ANY(uint64_t, key);
    __CPROVER_assume(IS_KEY(key) && has_stamp(noted(key)));
    nat said = number_of_recalled(said_by(noted(key), stamp_of(noted(key)), key));
    uint32_t imp = msg_recall_key(SENDER, WORDS, key);
    __CPROVER_assert(imp == (said == MSG_NOTED_NONE ? 0 : said), "must fail");
}
/* No access outside: of a key that msg_key made, of whatever bytes whose stamp is a shared word. */
void recall_reads_inside(void)
{
    ANY(uint32_t, slot); ANY(uint32_t, sel); ANY(bool, none);
#ifdef ANY_KEY /* must fail: what is no multiple of 16 reads up to 30 bytes beyond */
    ANY(uint64_t, key);
#else
    uint64_t key = msg_key(slot, sel); /* also of slots of 2^26 and more */
#endif
#ifndef ANY_STAMP /* must fail: a stamp beyond the words */
    __CPROVER_assume(has_stamp(noted(key)));
#endif
    if (none) msg_recall_none_key(SENDER, WORDS, key);
    else msg_recall_key(SENDER, WORDS, key);
}

/* ---- msg_open, msg_report: the words that the library is given are the fields ---- */
static const msg_config *given;
static struct msg_report_row *row;
static const msg_runtime *of; /* and what the library answered */
static uint32_t answered;
uint32_t msg_open_words(msg_runtime *runtime, const uint32_t *config, size_t words)
{
    ANY(size_t, i); ANY(uint32_t, answer);
    __CPROVER_assert(words == 11, "as many words as fields");
    __CPROVER_assume(i < words);
    uint32_t want = !given ? 0 : i == 0 ? given->classes : i == 1 ? given->senders
                  : given->arrays[i - 2];
    __CPROVER_assert(config[i] == want && runtime == of, "each word is its field");
    return answered = answer;
}
void open_gives_the_words(void)
{
    ANY(bool, has); ANY(uint32_t, answer);
    msg_runtime runtime = MSG_RUNTIME_INIT;
    msg_config *config = __CPROVER_allocate(sizeof *config, 0);
    given = has ? config : NULL;
    of = &runtime;
    __CPROVER_assert(msg_open(&runtime, given) == answered, "its answer");
}
uint32_t msg_report_words(msg_runtime *runtime, uint64_t *words, size_t count)
{
    ANY(size_t, i); ANY(uint32_t, answer); ANY(uint64_t, value);
    __CPROVER_assert(count == 17, "as many words as fields");
    __CPROVER_assume(i < count);
    words[i] = value;
    uint64_t got = i == 0 ? row->fills : i == 1 ? row->growths : i == 2 ? row->flushes
                 : i == 3 ? row->retired : i == 4 ? row->given_again : i == 5 ? row->collections
                 : i == 6 ? row->freed : i < 16 ? row->no_array[i - 7] : row->refused_senders;
    __CPROVER_assert(got == value && runtime == of, "each word is its field");
    return answered = answer;
}
void report_gives_the_words(void)
{
    msg_runtime runtime = MSG_RUNTIME_INIT;
    row = __CPROVER_allocate(sizeof *row, 0);
    of = &runtime;
    __CPROVER_assert(msg_report(&runtime, row) == answered, "its answer");
}

/* ---- msg_find: by the contracts of msg_probe and msg_fill, of which these are the clauses that
 * count ---- */
static int held, probes, fills, locks;
static uint32_t probed, filled, first_imp;
static struct { uint32_t number, sel; bool meta; const uint32_t *imp; } wanted;
static bool is_wanted(msg_sender *s, uint32_t number, bool meta, uint32_t sel, uint32_t *imp)
{
    bool is_into = s == SENDER && imp == wanted.imp;
    return is_into && number == wanted.number && meta == wanted.meta && sel == wanted.sel;
}
uint32_t msg_probe(msg_sender *s, uint32_t number, bool meta, uint32_t sel, uint32_t *imp)
{
    ANY(uint32_t, answer); ANY(uint32_t, value);
    __CPROVER_assert(is_wanted(s, number, meta, sel, imp), "what is asked is probed for");
    bool is_fault = answer == MSG_CLOSED || answer == MSG_NO_CLASS || answer == MSG_NO_SELECTOR;
    __CPROVER_assume(answer == MSG_DONE || answer == MSG_MISSED || is_fault);
    if (answer == MSG_DONE) *imp = first_imp = value; /* left: else it stays */
    probes++;
    probed = answer;
    return answer;
}
uint32_t msg_fill(msg_runtime *runtime, msg_sender *s, uint32_t number, bool meta, uint32_t sel,
                  uint32_t *imp)
{
    ANY(uint32_t, answer); ANY(uint32_t, value);
    __CPROVER_assert(held == 1, "a fill is under the lock");
    __CPROVER_assert(is_wanted(s, number, meta, sel, imp) && runtime == of, "it is filled");
    __CPROVER_assume(answer != MSG_MISSED);
    if (answer == MSG_DONE) *imp = first_imp = value;
    fills++;
    filled = answer;
    return answer;
}
static int lock_word;
int cv_lock(int *lock)
{
    __CPROVER_assert(lock == &lock_word && !held, "the host's lock, not held");
    held = 1;
    locks++;
    return 0;
}
int cv_unlock(int *lock)
{
    __CPROVER_assert(lock == &lock_word && held, "held");
    held = 0;
    return 0;
}
void find_asks_in_order(void)
{
    ANY(uint32_t, number); ANY(bool, meta); ANY(uint32_t, sel); ANY(uint32_t, imp);
    msg_runtime runtime; /* as anything opened it */
    __CPROVER_assume(runtime.open == (runtime.at != 0) && SENDER->open == (SENDER->at != 0));
    held = probes = fills = locks = 0;
    wanted.number = number, wanted.sel = sel, wanted.meta = meta, wanted.imp = &imp;
    of = &runtime;
    uint32_t before = imp, answer = msg_find(&runtime, &lock_word, SENDER, number, meta, sel, &imp);
    __CPROVER_assert(!held, "the lock is given");
    bool is_filled = fills == (probed == MSG_MISSED) && locks == fills;
    __CPROVER_assert(probes == 1 && is_filled, "one probe; a fill after a miss alone");
    __CPROVER_assert(answer == (fills ? filled : probed) && answer != MSG_MISSED, "its answer");
    __CPROVER_assert(answer == MSG_DONE || imp == before, "nothing is written after a fault");
    __CPROVER_assert(answer || imp == first_imp, "the number is what was answered");
}

/* ---- msg_find_all: by those of msg_probe_all and msg_fill_all ---- */
static const msg_lookup_row *asked;
static const size_t *where;
static bool are_wanted(msg_sender *s, const msg_lookup_row *lookups, size_t count, uint32_t *imps,
                       size_t room, size_t *place)
{
    bool is_into = s == SENDER && imps == wanted.imp && place == where;
    return is_into && lookups == asked && count == 1 && room == 1;
}
uint32_t msg_probe_all(msg_sender *s, const msg_lookup_row *lookups, size_t count, uint32_t *imps,
                       size_t room, size_t *place)
{
    ANY(uint32_t, answer); ANY(uint32_t, value);
    bool is_fault = answer == MSG_CLOSED || answer == MSG_NO_CLASS || answer == MSG_NO_SELECTOR ||
                    answer == MSG_BAD_CHANGE;
    __CPROVER_assert(are_wanted(s, lookups, count, imps, room, place), "all that are asked");
    __CPROVER_assume(answer == MSG_DONE || answer == MSG_MISSED || is_fault);
    if (!is_fault) *imps = first_imp = value; /* after a miss it means nothing */
    probes++;
    probed = answer;
    return answer;
}
uint32_t msg_fill_all(msg_runtime *runtime, msg_sender *s, const msg_lookup_row *lookups,
                      size_t count, uint32_t *imps, size_t room, size_t *place)
{
    ANY(uint32_t, answer); ANY(uint32_t, value);
    __CPROVER_assert(held == 1 && runtime == of, "a fill is under the lock");
    __CPROVER_assert(are_wanted(s, lookups, count, imps, room, place), "all that are asked");
    __CPROVER_assume(answer != MSG_MISSED);
    if (answer == MSG_DONE) *imps = value;
    fills++;
    filled = answer;
    first_imp = value;
    return answer;
}
void find_all_asks_in_order(void)
{
    ANY(uint32_t, imp);
    msg_lookup_row row;
    msg_runtime runtime; /* as anything opened it */
    size_t place = 0;
    __CPROVER_assume(runtime.open == (runtime.at != 0) && SENDER->open == (SENDER->at != 0));
    held = probes = fills = locks = 0;
    asked = &row, where = &place, wanted.imp = &imp, of = &runtime;
    uint32_t answer = msg_find_all(&runtime, &lock_word, SENDER, &row, 1, &imp, &place);
    __CPROVER_assert(!held, "the lock is given");
    bool is_filled = fills == (probed == MSG_MISSED) && locks == fills;
    __CPROVER_assert(probes == 1 && is_filled, "one probe; a fill after a miss alone");
    __CPROVER_assert(answer == (fills ? filled : probed) && answer != MSG_MISSED, "its answer");
    __CPROVER_assert(answer || imp == first_imp, "the number is what was answered");
}
