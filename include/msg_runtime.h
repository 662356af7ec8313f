/* Message dispatch with machine-checked proofs, for hosts in C.
 *
 * docs/EMBEDDING.md takes you to a first send. This header is the reference.
 * It says of each call what it does, its parameters and its faults, and its
 * cost if that grows with something; docs/PERFORMANCE.md has figures. A group's
 * title says whether its calls want the lock, and may say what all of them
 * cost. What is proved of a call are the clauses of its contract in
 * crates/msg_c. What else its comment says is tested.
 *
 * A runtime opens without classes. All numbers are the host's to give:
 *
 *   - classes are numbered from 0, below the count that the config reserves;
 *   - selectors and implementations are numbered from 1, with any 32 bits;
 *   - a lookup finds the number that was given with a method, or 0, which is
 *     forwarding (_objc_msgForward) and the host's to write.
 *
 * The library knows no names, and lets every implementation fit every
 * selector. msg_texts numbers names for hosts that have them.
 *
 * Faults. Every call returns MSG_DONE or the number of a fault, unless it says
 * otherwise. It names all of its faults but MSG_CLOSED, which every call that
 * takes a handle returns if the handle isn't open. After a fault nothing has
 * changed and nothing was written through a pointer, unless the call says so.
 * After MSG_MISSED the sender may have seen more changes. No call panics or
 * aborts, except by an assert of MSG_CHECK. No call waits, except msg_find and
 * msg_find_all, which take the lock after a miss.
 *
 * These get a fault: a handle that is closed, or opened twice, a class number
 * that isn't reserved, selector 0 and implementation 0. A lookup in a class
 * that isn't made, or of a selector that nobody has, finds 0 without a fault.
 * Any other number of an implementation is accepted.
 *
 * Trust. Nothing checks a C program, so a host is TRUSTED with these rules:
 *
 *   - This header says what crates/msg_c exports.
 *   - Pointers are not NULL (but see msg_open) and point to as much as is said.
 *     What a call writes to overlaps no other argument. With a length of 0 any
 *     pointer will do, NULL too. A bool is 0 or 1.
 *   - A handle starts as MSG_RUNTIME_INIT, MSG_SENDER_INIT or MSG_TEXTS_INIT
 *     (zero bytes). Its bytes are then left alone, and it is not copied: at
 *     most it is moved.
 *   - A handle is in one call at a time. Calls that take a msg_runtime are made
 *     under one lock of the host's, the runtime lock (a pthread mutex, a GIL).
 *     So are calls that take a msg_texts, under this lock or another. Calls
 *     that take only a msg_sender want no lock: any number of senders may be in
 *     them at once, while one thread has the lock.
 *   - A thread that holds the runtime lock does not call msg_find or
 *     msg_find_all, which take the lock after a miss: it would wait for itself.
 *     Under the lock msg_lookup or msg_fill looks up, and MSG_CHECK tells the
 *     mistake.
 *   - A handle goes to another thread by something that orders memory: a lock,
 *     a thread's start or join.
 *   - A sender goes only to calls on the runtime that it was opened from. (This
 *     is the one `requires` that no call can test.)
 *   - malloc, realloc and free are the C library's (trusted/process/memory.c
 *     stands between), and there is enough stack. No proof bounds how much.
 *     Threads that find have run with as little as 64 KiB
 *     (trusted/process/measure/rests.c).
 *   - No call is made in a signal handler, or in the forked child of a process
 *     with threads. msg_process.h does that, with a lock and a sender for each
 *     thread.
 *
 * Visibility. Whoever finds a number that a change gave sees what the host
 * wrote before it made that change. So does whoever is told of the change by
 * msg_refresh, msg_probe, msg_fill, msg_meet or msg_rest: the library's shared
 * words are stored and loaded sequentially consistent. So a table of functions
 * may grow while threads send: first the new slot, then the change.
 *
 * To announce a change, a host stores a flag after the call has returned.
 * Whoever sees that flag no longer finds the old number. A store made before
 * the return announces nothing, not even under the lock: a thread may see it,
 * and still find the old number.
 */
#ifndef MSG_RUNTIME_H
#define MSG_RUNTIME_H

#include <stdbool.h>
#include <stddef.h>
#include <stdint.h>
#include <string.h>

/* The version of this header. Within a major version nothing is removed or
 * moved, except while the major version is 0. As one number, for #if:
 * 1,000,000 * major + 1,000 * minor + patch. */
#define MSG_VERSION_MAJOR 0
#define MSG_VERSION_MINOR 1
#define MSG_VERSION_PATCH 0
#define MSG_VERSION_NUMBER \
    (1000000 * MSG_VERSION_MAJOR + 1000 * MSG_VERSION_MINOR + MSG_VERSION_PATCH)

#ifdef __cplusplus
extern "C" {
#endif

/* ---- types ---- */

/* What a sender has noted of one lookup. `seal` is the lookup's key (msg_key)
 * less what msg_said says of it; 0 is no note. `stamp`: how many bytes after
 * the first of the shared words (msg_words) the stamp of its class lies; of no
 * note it is 0, which is the count of changes. `parity`, 0 or 1, is the same
 * in both notes of a place where the second one is the newer. */
typedef struct {
    uint64_t seal;
    uint64_t count;
    uint32_t imp;
    uint32_t parity;
    uint64_t stamp;
} msg_note;

/* How many places a sender has for notes, each of two: a first and a second
 * one. A lookup has one place. If both notes there are of others, the older one
 * is put out. No note is moved. All are in the handle, which has 512 KiB. */
enum { MSG_NOTES = 8192 };

/* Handles. A sender is for one thread. Align an array of them to 64 bytes by
 * its type, as in struct { _Alignas(64) msg_sender sender; }, so that no two
 * threads share a line of the cache. */
typedef struct {
    void *at;
    bool open;
} msg_runtime;
typedef struct {
    void *at;
    bool open;
    bool apart[7];      /* unused, so that what follows begins at 16 */
    bool written[64];   /* the library's: which 128 places have notes */
    uint64_t unused[2]; /* so that no note lies on two lines of the cache */
    msg_note notes[MSG_NOTES];
    msg_note second_notes[MSG_NOTES];
} msg_sender;
typedef struct {
    void *at;
    bool open;
} msg_texts;
/* clang-format off */
#define MSG_RUNTIME_INIT {0, 0}
#define MSG_SENDER_INIT \
    {0, 0, {0}, {0}, {0}, {{0, 0, 0, 0, 0}}, {{0, 0, 0, 0, 0}}}
#define MSG_TEXTS_INIT {0, 0}
/* clang-format on */

/* A class, or its metaclass. */
typedef struct {
    uint32_t number;
    bool meta;
} msg_class;

/* A method of a category. */
typedef struct {
    uint32_t sel;
    uint32_t imp;
} msg_method;

/* A change of a list. Its kind says which call it stands for, and so which
 * fields are read; the others are 0:
 *   MSG_ADDS, MSG_REPLACES, MSG_SETS_IMP   number, meta, sel, imp
 *   MSG_EXCHANGES            number, meta, sel, other, other_meta, other_sel
 *   MSG_MAKES_CLASS          number, and other, which is the superclass
 *   MSG_MAKES_ROOT_CLASS     number
 *   MSG_REMOVES              number, meta, sel
 *   MSG_DISPOSES_CLASS       number
 *   MSG_COVERS               number, meta, sel, imp: attaches one method */
typedef struct {
    uint32_t kind;
    uint32_t number;
    uint32_t meta;
    uint32_t sel;
    uint32_t imp;
    uint32_t other;
    uint32_t other_meta;
    uint32_t other_sel;
} msg_change;
enum {
    MSG_ADDS = 1,
    MSG_REPLACES = 2,
    MSG_SETS_IMP = 3,
    MSG_EXCHANGES = 4,
    MSG_MAKES_CLASS = 5,
    MSG_MAKES_ROOT_CLASS = 6,
    MSG_REMOVES = 7,
    MSG_DISPOSES_CLASS = 8,
    MSG_COVERS = 9
};

/* A lookup, as one of several: by a class, or by its metaclass if meta is 1. */
typedef struct {
    uint32_t number;
    uint32_t meta;
    uint32_t sel;
} msg_lookup_row;

/* How much a runtime has room for. Fields have 32 bits, and 0 is the default.
 * Later fields come at the end. */
typedef struct {
    /* Class numbers are below this: 16,384 by default, at most 1,048,576. */
    uint32_t classes;
    /* How many may be open at once: 1,024 by default, at most 16,384. */
    uint32_t senders;
    /* How many arrays of 4, 8, .., 1,024 entries there are for caches, at most
     * 65,535 of each. All 0 is 4,096 2,048 512 256 128 64 32 16 8. If one isn't
     * 0, a 0 there is none: give all nine. */
    uint32_t arrays[9];
} msg_config;

/* What was done to caches since the runtime was opened. A count stays at its
 * greatest value once it is there. Fields have 64 bits, and later ones come at
 * the end. */
struct msg_report_row {
    uint64_t fills;       /* entries that were stored in caches */
    uint64_t growths;     /* arrays that were installed for an entry */
    uint64_t flushes;     /* classes or metaclasses whose array a change took */
    uint64_t retired;     /* arrays that were taken by a change or a growth */
    uint64_t given_again; /* installs of an array that was installed before */
    uint64_t collections; /* searches for arrays nobody holds any more */
    uint64_t freed;       /* arrays freed by them; other retired ones wait */
    uint64_t no_array[9]; /* entries not cached: no array of 4, 8, .. is free */
    uint64_t refused_senders; /* senders asked for while all were in use */
};

/* ---- numbers of faults ---- */

enum {
    MSG_DONE = 0,
    /* Faults of changes. The first that holds is returned. */
    MSG_NO_SUCH_CLASS = 1,   /* no class of the number, or it isn't made */
    MSG_NO_SUCH_IMP = 2,     /* the implementation's number is 0 */
    MSG_ARGUMENT_COUNT = 3,  /* never of a host's runtime */
    MSG_METHOD_PRESENT = 4,  /* the class has the method itself */
    MSG_NO_METHOD = 5,       /* no such method is found */
    MSG_LIMIT = 6,           /* 2^48 changes, 2^32 methods or 2^32 - 1 texts */
    MSG_CHANGE_MEMORY = 7,   /* no memory for the change */
    MSG_DUPLICATE_CLASS = 8, /* the class is made already */
    MSG_CLASS_IN_USE = 9,    /* a class is below it */
    /* Faults of any call. */
    MSG_CLOSED = 64,       /* a handle isn't open */
    MSG_ALREADY_OPEN = 65, /* the handle is open already */
    MSG_NO_CLASS = 66,     /* a class number isn't below the count */
    MSG_NO_SELECTOR = 67,  /* a selector's number is 0 */
    MSG_NO_SENDER = 68,    /* as many senders as the config says are open */
    MSG_NO_MEMORY = 69,    /* no memory */
    MSG_NONE = 70,         /* no superclass, method, text or further member */
    MSG_MISSED = 71,       /* msg_probe: not cached. Ask msg_fill */
    MSG_BAD_CONFIG = 73,   /* a field is beyond its most, or isn't known */
    MSG_BAD_CHANGE = 75,   /* a change of no kind, or meta above 1 */
    MSG_NO_ROOM = 76,      /* the array for the answer has the wrong size */
    MSG_LOCK_HELD = 74     /* msg_process.h: the lock is held already */
};

/* ---- opening and closing, under the lock ---- */

/* Opens a runtime without classes and without changes. A host in C calls
 * msg_open, which gives the fields of a msg_config as `config`, `words` many.
 * Fields that lack are the default. Fields that the library does not know have
 * to be 0. So hosts with an older or a newer msg_config are understood, or
 * refused.
 *
 * Faults: MSG_ALREADY_OPEN, MSG_NO_MEMORY, MSG_BAD_CONFIG.
 * Cost: all arrays and class numbers are written. */
uint32_t msg_open_words(msg_runtime *runtime, const uint32_t *config,
                        size_t words);
/* Closes a runtime and gives its memory back. Senders that are still open keep
 * what they share with it, and may be closed later. A find by one of them may
 * still hit: stop the threads that send first.
 *
 * Cost: it gives back the memory of each method list. */
uint32_t msg_close(msg_runtime *runtime);

/* ---- asking, under the lock ---- */

/* How many class numbers the config reserved. */
uint32_t msg_class_count(msg_runtime *runtime, uint32_t *count);
/* How many changes were made. A list counts as one. */
uint32_t msg_change_count(msg_runtime *runtime, uint64_t *count);
/* What was done to caches: as many fields of a msg_report_row as there is room
 * for in `words`, which has `count` entries. Those beyond the fields that the
 * library knows are set to 0. A host in C calls msg_report. */
uint32_t msg_report_words(msg_runtime *runtime, uint64_t *words, size_t count);
/* Looks a method up after all changes so far (class_getMethodImplementation).
 * `imp` is set to its implementation, or to 0, forwarding; so it is for a class
 * that isn't made. It looks at no cache and fills none.
 *
 * Faults: MSG_NO_CLASS, MSG_NO_SELECTOR.
 * Cost: a walk up the superclasses. */
uint32_t msg_lookup(msg_runtime *runtime, uint32_t number, bool meta,
                    uint32_t sel, uint32_t *imp);
/* What stands above (class_getSuperclass): above a class its superclass, above
 * a metaclass the superclass's metaclass, and above a root's metaclass the root
 * itself.
 *
 * Faults: MSG_NO_CLASS, and MSG_NONE for a root class or one that isn't made.
 */
uint32_t msg_superclass(msg_runtime *runtime, uint32_t number, bool meta,
                        msg_class *above);
/* Where the method stands that a lookup finds (class_getInstanceMethod): the
 * class itself, or one above it.
 *
 * Faults: MSG_NO_CLASS, MSG_NO_SELECTOR, and MSG_NONE if a lookup finds none.
 * Cost: a walk up the superclasses. */
uint32_t msg_holder(msg_runtime *runtime, uint32_t number, bool meta,
                    uint32_t sel, msg_class *at);
/* The methods that a class or a metaclass has itself (class_copyMethodList),
 * the newest first: of several of one selector a lookup finds the first. They
 * are written to `methods`, which has `room` entries, and `count` is set to how
 * many there are. A class that isn't made has none.
 *
 * Faults: MSG_NO_CLASS, and MSG_NO_ROOM if there are more than `room`: then no
 * method is written, but `count` is. So a call without room counts them.
 * Cost: a walk over these methods, and no memory. */
uint32_t msg_methods(msg_runtime *runtime, uint32_t number, bool meta,
                     msg_method *methods, size_t room, size_t *count);
/* The classes that are made (objc_getClassList), each after its superclass, in
 * the same way.
 *
 * Faults: MSG_NO_ROOM.
 * Cost: a walk over these classes. */
uint32_t msg_classes(msg_runtime *runtime, uint32_t *classes, size_t room,
                     size_t *count);
/* The classes below a class, in the same way: its subclasses, theirs, and so
 * on, each once. Their order isn't promised.
 *
 * Faults: MSG_NO_CLASS, MSG_NO_ROOM.
 * Cost: two walks over these classes. */
uint32_t msg_classes_below(msg_runtime *runtime, uint32_t number,
                           uint32_t *classes, size_t room, size_t *count);

/* ---- changing, under the lock ----
 *
 * When a change returns, every cache that it affects has been flushed. A find
 * that begins after that sees the change, on any thread, without a refresh.
 * This is proved for a sender that has seen the change, and tested for others.
 *
 * msg_set_imp, msg_exchange, msg_remove, msg_make_class and msg_make_root_class
 * never lack memory: MSG_CHANGE_MEMORY is in their lists of faults, but an open
 * runtime doesn't return it there. Cost: a walk over the classes below the one
 * that changes; no walk over all classes. */

/* Gives a class a method of its own (class_addMethod), which hides an inherited
 * one.
 *
 * Faults: MSG_NO_SUCH_CLASS, MSG_NO_SUCH_IMP, MSG_METHOD_PRESENT if the class
 * has one of the selector itself, MSG_NO_SELECTOR, MSG_LIMIT,
 * MSG_CHANGE_MEMORY. */
uint32_t msg_add(msg_runtime *runtime, uint32_t number, bool meta, uint32_t sel,
                 uint32_t imp);
/* Gives a class this method in place of its own (class_replaceMethod), of
 * several the newest, or adds it if the class has none of its own.
 *
 * Faults: MSG_NO_SUCH_CLASS, MSG_NO_SUCH_IMP, MSG_NO_SELECTOR, MSG_LIMIT,
 * MSG_CHANGE_MEMORY. */
uint32_t msg_replace(msg_runtime *runtime, uint32_t number, bool meta,
                     uint32_t sel, uint32_t imp);
/* Sets the method that a lookup in the class finds (method_setImplementation).
 * It is written where the method stands, perhaps in a class above: then all
 * classes that inherit it change.
 *
 * Faults: MSG_NO_SUCH_CLASS, MSG_NO_SUCH_IMP, MSG_NO_METHOD if a lookup finds
 * none, MSG_NO_SELECTOR, MSG_LIMIT, MSG_CHANGE_MEMORY. */
uint32_t msg_set_imp(msg_runtime *runtime, uint32_t number, bool meta,
                     uint32_t sel, uint32_t imp);
/* Exchanges the two methods that lookups find (method_exchangeImplementations),
 * each where it stands.
 *
 * Faults: MSG_NO_SUCH_CLASS, MSG_NO_METHOD if a lookup finds none,
 * MSG_NO_SELECTOR, MSG_LIMIT, MSG_CHANGE_MEMORY. */
uint32_t msg_exchange(msg_runtime *runtime, uint32_t number, bool meta,
                      uint32_t sel, uint32_t other, bool other_meta,
                      uint32_t other_sel);
/* Attaches a category: `methods` for a class, and `class_methods` for its
 * metaclass. They hide the class's own methods of the same selectors, and those
 * of categories that were attached before. Of two methods of one selector in
 * the list the earlier is found.
 *
 * Faults: MSG_NO_SUCH_CLASS, MSG_NO_SUCH_IMP, MSG_NO_SELECTOR, MSG_LIMIT, and
 * MSG_CHANGE_MEMORY, which may also say that the lists themselves wanted
 * memory, whatever else speaks against them. */
uint32_t msg_attach(msg_runtime *runtime, uint32_t number,
                    const msg_method *methods, size_t count,
                    const msg_method *class_methods, size_t class_count);
/* Makes a class (objc_allocateClassPair with objc_registerClassPair) and its
 * metaclass, without methods, below a superclass that is made.
 *
 * Faults: MSG_NO_SUCH_CLASS for the superclass or a number that isn't reserved,
 * MSG_DUPLICATE_CLASS, MSG_LIMIT, MSG_CHANGE_MEMORY. */
uint32_t msg_make_class(msg_runtime *runtime, uint32_t number,
                        uint32_t superclass);
/* Makes a root class and its metaclass, without methods.
 *
 * Faults: MSG_NO_SUCH_CLASS for a number that isn't reserved,
 * MSG_DUPLICATE_CLASS, MSG_LIMIT, MSG_CHANGE_MEMORY. */
uint32_t msg_make_root_class(msg_runtime *runtime, uint32_t number);
/* Takes the method away that a class has of its own (class_removeMethod). One
 * that it hid counts again: a category's hides its class's.
 *
 * Faults: MSG_NO_SUCH_CLASS, MSG_NO_METHOD if the class itself has none,
 * MSG_NO_SELECTOR, MSG_LIMIT, MSG_CHANGE_MEMORY. */
uint32_t msg_remove(msg_runtime *runtime, uint32_t number, bool meta,
                    uint32_t sel);
/* Takes a class away (objc_disposeClassPair), with its metaclass and the
 * methods of both. Its number may be used again.
 *
 * Faults: MSG_NO_SUCH_CLASS, MSG_CLASS_IN_USE if a class is below it,
 * MSG_LIMIT, MSG_CHANGE_MEMORY. */
uint32_t msg_dispose_class(msg_runtime *runtime, uint32_t number);

/* ---- changing several as one, under the lock ---- */

/* Makes a list of `count` changes as one: every lookup, by whatever sender, is
 * from before all of them or from after all, and the count of changes grows by
 * one. A list of no changes changes nothing and isn't counted.
 *
 * The list is refused as a whole, for the first change that would be refused if
 * those before it were made. Then `place` is set to the change's index, and the
 * fault is the change's. What means no change (MSG_NO_SELECTOR, MSG_BAD_CHANGE)
 * is found before any is made. MSG_CHANGE_MEMORY is returned only if neither
 * the change at `place` nor one before it would be refused.
 *
 * Faults: MSG_NO_SUCH_CLASS, MSG_NO_SUCH_IMP, MSG_METHOD_PRESENT,
 * MSG_NO_METHOD, MSG_DUPLICATE_CLASS, MSG_CLASS_IN_USE, MSG_LIMIT,
 * MSG_CHANGE_MEMORY, MSG_NO_SELECTOR, MSG_BAD_CHANGE.
 * Cost: at most that of its changes one by one, and memory if there is less
 * room than what they write. */
uint32_t msg_change_all(msg_runtime *runtime, const msg_change *changes,
                        size_t count, size_t *place);
/* msg_change_all that also writes a way back: `undone` changes in `undo`,
 * which has `room` entries. Made as one directly afterwards they take the list
 * back. After another change of the same methods or classes they may be
 * refused. Or they are accepted, and overwrite or remove what others put there.
 * So such lists are taken back in reverse order. The superclass of a class that
 * the list took away counts as such a class, too.
 *
 * Each accepted list has a way back. It has a change each time that the list
 * adds, writes or takes away a method, or makes or takes away a class. The same
 * one again counts again. MSG_EXCHANGES writes two methods, and
 * MSG_DISPOSES_CLASS takes away each that the class and its metaclass have.
 *
 * Faults: those of msg_change_all, and MSG_NO_ROOM if the way back has more
 * than `room` changes. Then nothing is made, and `undone` is set to how much
 * room is wanted.
 * Cost: that of msg_change_all, and a store for each change of the way back. */
uint32_t msg_change_all_with_undo(msg_runtime *runtime,
                                  const msg_change *changes, size_t count,
                                  msg_change *undo, size_t room, size_t *undone,
                                  size_t *place);
/* A dry run of msg_change_all: which lookups would it change? `reached` has
 * `room` entries, twice as many as there are class numbers: [2 * n] is class n,
 * and [2 * n + 1] its metaclass. An entry is set to true if a lookup there may
 * change; the others keep their value.
 *
 * Faults: those of msg_change_all, with `place`, and MSG_NO_ROOM if `room` is
 * another count. What the changes before `place` would change is set. But after
 * MSG_NO_SELECTOR and MSG_BAD_CHANGE nothing is set, and after
 * MSG_CHANGE_MEMORY what is set means nothing.
 * Cost: a walk over the classes that it sets. */
uint32_t msg_reach(msg_runtime *runtime, const msg_change *changes,
                   size_t count, bool *reached, size_t room, size_t *place);

/* ---- senders, under the lock ---- */

/* Where the words lie that all threads share, which the inline recall loads a
 * stamp from. They lie there as long as the runtime or a sender of it is open,
 * and only the library writes them. */
uint32_t msg_words(msg_runtime *runtime, const uint64_t **words);

/* Opens a sender for one thread. It has seen all changes so far.
 *
 * Faults: MSG_ALREADY_OPEN, MSG_NO_MEMORY, and MSG_NO_SENDER, only if as many
 * are open as the config says. A sender that is closed counts no more.
 * Cost: it goes over the sender numbers from the least that may be free on, and
 * takes some bytes of memory. */
uint32_t msg_sender_open(msg_runtime *runtime, msg_sender *sender);
/* Closes a sender. `runtime` is the handle that opened it, even if that is
 * closed by now: only a sender that isn't open is MSG_CLOSED. A handle that is
 * closed may be opened again once its senders are closed, too.
 *
 * Cost: a walk over the parts of its notes that were written. */
uint32_t msg_sender_close(msg_runtime *runtime, msg_sender *sender);
/* Looks a method up after all changes so far (lookUpImpOrForward), which the
 * sender has then seen. `imp` is set as by msg_lookup. The sender notes it, and
 * it is cached if there is room. Call it after msg_probe has missed, or let
 * msg_find do both.
 *
 * Faults: MSG_NO_CLASS, MSG_NO_SELECTOR.
 * Cost: a walk up the superclasses, and a store into the cache. */
uint32_t msg_fill(msg_runtime *runtime, msg_sender *sender, uint32_t number,
                  bool meta, uint32_t sel, uint32_t *imp);
/* Looks up several after all changes so far, which the sender has then seen.
 * What it has not noted is cached, if there is room, and noted. Parameters are
 * those of msg_probe_all. Call it after that has missed, or let msg_find_all do
 * both.
 *
 * Faults: MSG_NO_CLASS, MSG_NO_SELECTOR, MSG_BAD_CHANGE, MSG_NO_ROOM, as of
 * msg_probe_all.
 * Cost: for each lookup that of msg_fill. */
uint32_t msg_fill_all(msg_runtime *runtime, msg_sender *sender,
                      const msg_lookup_row *lookups, size_t count,
                      uint32_t *imps, size_t room, size_t *place);
/* Shows the sender all changes so far. It forgets nothing. */
uint32_t msg_meet(msg_runtime *runtime, msg_sender *sender);
/* msg_meet, and notes that the sender rests: the host says by it that nothing
 * the sender found before is in use. Its thread runs no such function, and
 * keeps none to call. A sender also rests when it is opened. */
uint32_t msg_rest(msg_runtime *runtime, msg_sender *sender);
/* When old code can go: how many changes every open sender had seen when it
 * rested last. All changes if none is open. No sender will find what was
 * before them, so a function that the first `count` changes took out may be
 * freed. The host sees to three things. No later change puts it back. No thread
 * calls it by a number that msg_lookup or msg_methods returned before: that
 * isn't counted. And nobody calls msg_recall with less than `count`.
 *
 * Cost: it goes over all sender numbers of the config. */
uint32_t msg_seen_by_all(msg_runtime *runtime, uint64_t *count);

/* ---- sending, without a lock ---- */

/* The library's MSG_VERSION_NUMBER: a host that may meet another library
 * compares it with its own. While the major version is 0 that isn't enough:
 * compare msg_sender_size with sizeof(msg_sender), too. */
uint32_t msg_version(void);
/* How many bytes a msg_sender has, for hosts that don't compile this header. */
size_t msg_sender_size(void);
/* What the sender has noted of the lookup after `since` changes or more, for
 * slot 2 * number + meta. Returns the implementation's number, MSG_NOTED_NONE
 * if it noted that there is no method, or 0 if it has no such note. Then ask
 * msg_find, which notes what it finds.
 *
 * Since the stamp of the class (msg_stamp) it is what a lookup finds now:
 * msg_recall_key does both, inline, of the first note alone, and is the short
 * way of a send.
 *
 * Cost: it loads from the handle alone and writes nothing. */
size_t msg_recall(const msg_sender *sender, size_t slot, uint32_t sel,
                  uint64_t since);
#define MSG_NOTED_NONE ((size_t)1 << 32) /* as a uint32_t 0, forwarding */
/* What is cached (cache_getImp): what the sender has noted, else what the
 * shared cache has. `imp` is set to the lookup after the changes that the
 * sender has then seen, which are no fewer than before. What it has noted it
 * returns until a change affects the class, or two other lookups of its place
 * have been noted.
 *
 * Faults: MSG_NO_CLASS, MSG_NO_SELECTOR, and MSG_MISSED if neither has it.
 * Cost: a few loads, and no lock. */
uint32_t msg_probe(msg_sender *sender, uint32_t number, bool meta, uint32_t sel,
                   uint32_t *imp);
/* What several lookups find, all at one version: after the same changes, which
 * the sender has then seen, and which are no fewer than before. `imps` has
 * `room` entries, as many as there are lookups. A list of changes that was made
 * as one is in all of the answers or in none.
 *
 * Faults: MSG_MISSED if the sender's notes and the shared cache lack one of
 * them, or if a change of one's class falls among them; then what is in `imps`
 * means nothing. A change of other classes does not matter. MSG_NO_ROOM if
 * `room` is not `count`. MSG_NO_CLASS, MSG_NO_SELECTOR and MSG_BAD_CHANGE (meta
 * above 1) come with the `place` of the first lookup that is at fault, and
 * nothing is looked up.
 * Cost: a load of a shared word, and for each lookup another one and a few
 * loads; no lock. */
uint32_t msg_probe_all(msg_sender *sender, const msg_lookup_row *lookups,
                       size_t count, uint32_t *imps, size_t room,
                       size_t *place);
/* How many changes there are. The sender has then seen them: nothing older is
 * found by it from then on, and it forgets nothing.
 *
 * Cost: one load of a shared word. */
uint32_t msg_refresh(msg_sender *sender, uint64_t *count);
/* The stamp of a class, or of its metaclass: no change after so many has
 * affected it, so what msg_recall has since then is what a lookup finds. It is
 * above all counts, UINT64_MAX, from a change of the class on until the next
 * msg_fill of it. The sender has then seen all changes.
 *
 * Faults: MSG_NO_CLASS.
 * Cost: one load of a shared word. */
uint32_t msg_stamp(msg_sender *sender, uint32_t number, bool meta,
                   uint64_t *stamp);

/* ---- texts with numbers, under a lock ----
 *
 * For hosts that name things: under any lock, of any runtime or of none. A
 * text is any bytes. Each has a number, from 1 in the order in which they first
 * came, and keeps it until the texts are closed. */

/* Opens texts, of which there are none yet.
 *
 * Faults: MSG_ALREADY_OPEN, MSG_NO_MEMORY. */
uint32_t msg_texts_open(msg_texts *texts);
/* Closes texts and gives their memory back. */
uint32_t msg_texts_close(msg_texts *texts);
/* The text's number (sel_registerName). A new text gets the next one, and is
 * copied; only then is memory wanted.
 *
 * Faults: MSG_LIMIT if 2^32 - 1 texts are there, MSG_NO_MEMORY. */
uint32_t msg_texts_intern(msg_texts *texts, const uint8_t *text, size_t length,
                          uint32_t *number);
/* The text's number. It makes none.
 *
 * Faults: MSG_NONE if the text has none. */
uint32_t msg_texts_find(msg_texts *texts, const uint8_t *text, size_t length,
                        uint32_t *number);
/* The number's text (sel_getName): as much as there is room for in `into`, and
 * `length` is set to how long it is.
 *
 * Faults: MSG_NONE if no text has the number. */
uint32_t msg_texts_text(msg_texts *texts, uint32_t number, uint8_t *into,
                        size_t room, size_t *length);
/* How many colons a text has: as many arguments as a selector takes that is
 * named so.
 *
 * Faults: MSG_NONE if no text has the number. */
uint32_t msg_texts_colons(msg_texts *texts, uint32_t number, size_t *count);

/* ---- types by their encodings, without a lock ----
 *
 * As GCC's @encode spells types, on x86-64. A text is any bytes: a letter that
 * is unknown has no size, what is nested more than 200 deep ends the text, and
 * no size or alignment is above 2^28. Cost: a text is read once. */

/* The size and alignment of a text's first type, in bytes. Returns the place
 * behind it (objc_skip_typespec), which is above 0 if there is a text. */
size_t msg_type_first(const uint8_t *text, size_t length, uint64_t *size,
                      uint64_t *align);
/* The next member of a structure, in front of a text. Those before it end
 * before the bit `before`; of a union that is 0. Its type is from `begin`,
 * behind its name, to before `end`; it takes the bits from `first` to before
 * `last`.
 *
 * Faults: MSG_NONE if the structure or the text ends. */
uint32_t msg_type_member(const uint8_t *text, size_t length, uint64_t before,
                         size_t *begin, size_t *end, uint64_t *first,
                         uint64_t *last, uint64_t *align);

#ifdef __cplusplus
}
#endif

/* The layout that the library has: addresses of 64 bits, the lower byte first.
 * A compiler for an older C isn't asked. */
#if defined __cplusplus
#define MSG_IS_SO(what) static_assert(what, #what)
#elif __STDC_VERSION__ >= 201112L
#define MSG_IS_SO(what) _Static_assert(what, #what)
#else
#define MSG_IS_SO(what) struct msg_is_so
#endif
MSG_IS_SO(sizeof(msg_note) == 32);
MSG_IS_SO(offsetof(msg_note, seal) == 0 && offsetof(msg_note, count) == 8);
MSG_IS_SO(offsetof(msg_note, imp) == 16 && offsetof(msg_note, parity) == 20);
MSG_IS_SO(offsetof(msg_note, stamp) == 24);
MSG_IS_SO(sizeof(msg_sender) == 96 + 64 * MSG_NOTES);
MSG_IS_SO(offsetof(msg_sender, written) == 16);
MSG_IS_SO(offsetof(msg_sender, notes) == 96);
MSG_IS_SO(offsetof(msg_sender, second_notes) == 96 + 32 * MSG_NOTES);
MSG_IS_SO(sizeof(msg_config) == 44);
MSG_IS_SO(sizeof(msg_change) == 32);
MSG_IS_SO(offsetof(msg_change, number) == 4 && offsetof(msg_change, sel) == 12);
MSG_IS_SO(offsetof(msg_change, other) == 20);
MSG_IS_SO(offsetof(msg_change, other_sel) == 28);
MSG_IS_SO(sizeof(msg_lookup_row) == 12);
MSG_IS_SO(offsetof(msg_lookup_row, sel) == 8);
MSG_IS_SO(__BYTE_ORDER__ == __ORDER_LITTLE_ENDIAN__);

/* ---- inline: opening, reporting, texts of faults ---- */

/* Opens a runtime; with NULL all is the default. Trusted: this code, which
 * gives the config's words.
 *
 * Faults: those of msg_open_words. */
static inline uint32_t msg_open(msg_runtime *runtime, const msg_config *config)
{
    const msg_config by_default = {0, 0, {0}};
    if (!config) config = &by_default;
    return msg_open_words(runtime, (const uint32_t *)config,
                          sizeof *config / sizeof(uint32_t));
}

/* What was done to caches. Trusted: this code, which gives the row's words. */
static inline uint32_t msg_report(msg_runtime *runtime,
                                  struct msg_report_row *report)
{
    return msg_report_words(runtime, (uint64_t *)report,
                            sizeof *report / sizeof(uint64_t));
}

/* What a returned number says, in English. The text lasts as long as the
 * program. */
static inline const char *msg_fault_text(uint32_t fault)
{
    switch (fault) {
    case MSG_DONE: return "done";
    case MSG_NO_SUCH_CLASS: return "no such class, or it isn't made";
    case MSG_NO_SUCH_IMP: return "an implementation's number is 0";
    case MSG_ARGUMENT_COUNT: return "another count of arguments";
    case MSG_METHOD_PRESENT: return "the class has the method";
    case MSG_NO_METHOD: return "no such method";
    case MSG_LIMIT: return "as many changes or methods as there may be";
    case MSG_CHANGE_MEMORY: return "no memory for the change";
    case MSG_DUPLICATE_CLASS: return "the class is made already";
    case MSG_CLASS_IN_USE: return "a class is below it";
    case MSG_CLOSED: return "a handle isn't open";
    case MSG_ALREADY_OPEN: return "the handle is open already";
    case MSG_NO_CLASS: return "no such class number";
    case MSG_NO_SELECTOR: return "a selector's number is 0";
    case MSG_NO_SENDER: return "as many senders are open as the config says";
    case MSG_NO_MEMORY: return "no memory";
    case MSG_NONE: return "there is none";
    case MSG_MISSED: return "not cached";
    case MSG_BAD_CONFIG: return "the config asks for too much";
    case MSG_BAD_CHANGE: return "no such kind of change, or meta above 1";
    case MSG_NO_ROOM: return "another count of places is needed for the answer";
    case MSG_LOCK_HELD: return "the thread has the lock, or can't wait for it";
    default: return "unknown fault";
    }
}

/* ---- inline: recalling, and finding: a probe, and after a miss a fill ----
 *
 * The lock is a pthread mutex, or what MSG_LOCK, MSG_UNLOCK and MSG_LOCK_TYPE
 * are defined as before this header is included. With MSG_CHECK defined what
 * can be tested of the rules above is tested, by assert. */
#ifndef MSG_LOCK
#include <pthread.h>
#define MSG_LOCK_TYPE pthread_mutex_t
#define MSG_UNLOCK(lock) pthread_mutex_unlock(lock)
#ifndef MSG_CHECK
#define MSG_LOCK(lock) pthread_mutex_lock(lock)
#else /* its holder would wait for itself: a wait of MSG_PATIENCE s is told */
#include <sched.h>
#include <time.h>
#ifndef MSG_PATIENCE
#define MSG_PATIENCE 60
#endif
#define MSG_LOCK(lock) \
    do { \
        time_t msg_end = time(NULL) + MSG_PATIENCE; \
        while (pthread_mutex_trylock(lock)) { \
            (void)msg_end; /* where assert is compiled away */ \
            MSG_TEST(time(NULL) <= msg_end && \
                     "the lock isn't given: does this thread hold it?"); \
            sched_yield(); \
        } \
    } while (0)
#endif
#endif

#ifdef MSG_CHECK
#include <assert.h>
#define MSG_TEST(what) assert(what)
/* That the stamp of a key's note is msg_stamp, unless it is another by now. It
 * isn't closed; so where it was closed meanwhile, it opens by a later count. */
#define MSG_TEST_STAMP(sender, words, note, key, stamp) \
    do { \
        uint64_t msg_told = stamp; \
        msg_stamp((msg_sender *)(sender), MSG_SLOT_OF(key) / 2, \
                  MSG_SLOT_OF(key) % 2, &msg_told); \
        MSG_TEST(msg_told == (stamp) || msg_stamp_of(words, note) != (stamp)); \
    } while (0)
#else
#define MSG_TEST(what) ((void)0)
#define MSG_TEST_STAMP(sender, words, note, key, stamp) ((void)0)
#endif

/* Of slots below this keys are one to one, as they are of any class. And of a
 * key its slot, its selector, and where its two notes lie. */
#define MSG_SLOTS 67108864 /* 2^26 */
/* 2^35 + 2^3 * 3,849: more than all selectors take, and 3,849 notes on */
#define MSG_KEY_OF_SLOT UINT64_C(34359769160)
#define MSG_KEY_OF_SEL UINT64_C(8)
#define MSG_SLOT_OF(key) ((uint32_t)((key) / MSG_KEY_OF_SLOT - 1))
#define MSG_SEL_OF(key) ((uint32_t)((key) % MSG_KEY_OF_SLOT / MSG_KEY_OF_SEL))
#define MSG_NOTE_OF(sender, key) \
    ((const msg_note *)(const void *)((const char *)(sender)->notes + \
                                      4 * (uint16_t)(key)))
#define MSG_SECOND_NOTE_OF(sender, key) \
    ((const msg_note *)(const void *)((const char *)(sender)->second_notes + \
                                      4 * (uint16_t)(key)))

/* The key of a lookup as one word, of a slot below MSG_SLOTS: its low 16 bits
 * are a quarter of where its notes lie. It adds up: a host may keep slot *
 * MSG_KEY_OF_SLOT with each class and msg_key(0, sel) with each selector, and
 * add the two. No other sum is a key. */
static inline uint64_t msg_key(uint32_t slot, uint32_t sel)
{
    MSG_TEST(slot < MSG_SLOTS);
    return (slot + UINT64_C(1)) * MSG_KEY_OF_SLOT + sel * MSG_KEY_OF_SEL;
}

#define MSG_SAID_LONG 65534
#define MSG_SAID_NONE 65535
/* What a note at the place of a key says of its lookup: below
 * MSG_SAID_LONG the implementation's number, which is then not 0;
 * MSG_SAID_LONG, that there is one, whose number is longer: the note's `imp`;
 * MSG_SAID_NONE, that there is no method. Anything else: nothing. One load has
 * the lookup and the number, so a handler of a signal that notes another comes
 * before it or after it. Proved: a_seal_says_key_and_number. Trusted: this
 * code, and that an aligned load of 8 bytes is one load. */
static inline uint64_t msg_said(const msg_note *note, uint64_t key)
{
    return key - *(const volatile uint64_t *)&note->seal;
}

/* The stamp of the class that a note is of, by one load of a shared word: no
 * change after so many has affected it, so what was noted after as many or more
 * is what a lookup finds now. The load is sequentially consistent, as the
 * library's own.
 *
 * The note's seal is loaded after the stamp and the note's count. So where a
 * handler of a signal noted something there in between, the seal is of that: of
 * another lookup, or found just now and right, whatever stamp and count were
 * loaded. Where none did, all three are of one note. */
static inline uint64_t msg_stamp_of(const uint64_t *words, const msg_note *note)
{
    const void *stamp = (const char *)words + note->stamp;
    return __atomic_load_n((const uint64_t *)stamp, __ATOMIC_SEQ_CST);
}

/* msg_stamp and msg_recall without a call, for where each instruction counts,
 * of the first note at the key's place alone: the implementation's number that
 * a lookup of the key finds now, or 0 where that note doesn't say one. Then the
 * second note may say it, or it may say that there is no method. 0 is also for
 * key 0, which is of no lookup. `words` are the runtime's (msg_words). Trusted:
 * this code, and that the stamp lies where the words and the note say. With
 * MSG_CHECK each number is compared with the proved msg_recall, and its stamp
 * with msg_stamp. */
static inline uint32_t msg_recall_key(const msg_sender *sender,
                                      const uint64_t *words, uint64_t key)
{
    const msg_note *note = MSG_NOTE_OF(sender, key);
    uint64_t stamp = msg_stamp_of(words, note);
    uint64_t said = note->count >= stamp ? msg_said(note, key) : MSG_SAID_NONE;
    uint32_t imp = said < MSG_SAID_LONG    ? (uint32_t)said
                   : said == MSG_SAID_LONG ? note->imp
                                           : 0;
    MSG_TEST(!imp || imp == msg_recall(sender, MSG_SLOT_OF(key),
                                       MSG_SEL_OF(key), stamp));
    if (imp) MSG_TEST_STAMP(sender, words, note, key, stamp);
    return imp;
}

/* Whether the first note at the key's place says that there is no method: then
 * msg_recall returns MSG_NOTED_NONE. If it doesn't, the second note may. */
static inline bool msg_recall_none_key(const msg_sender *sender,
                                       const uint64_t *words, uint64_t key)
{
    const msg_note *note = MSG_NOTE_OF(sender, key);
    uint64_t stamp = msg_stamp_of(words, note);
    bool is_none = note->count >= stamp && msg_said(note, key) == MSG_SAID_NONE;
    MSG_TEST(!is_none || msg_recall(sender, MSG_SLOT_OF(key), MSG_SEL_OF(key),
                                    stamp) == MSG_NOTED_NONE);
    if (is_none) MSG_TEST_STAMP(sender, words, note, key, stamp);
    return is_none;
}

/* The slot of a class, or of its metaclass: 2 * number + meta; and MSG_SLOTS of
 * a number that is too great for one, so that none wraps to another class's. */
static inline uint32_t msg_slot(uint32_t number, bool meta)
{
    return number < MSG_SLOTS / 2 ? 2 * number + meta : MSG_SLOTS;
}

/* msg_recall_key of a slot and a selector. Of slots from MSG_SLOTS on nothing
 * is noted. */
static inline uint32_t msg_recall_inline(const msg_sender *sender,
                                         const uint64_t *words, uint32_t slot,
                                         uint32_t sel)
{
    if (slot >= MSG_SLOTS) return 0;
    return msg_recall_key(sender, words, msg_key(slot, sel));
}

/* Finds a message's implementation (objc_msg_lookup): what a lookup gives after
 * all changes that had returned, and perhaps later ones. That is never older
 * than what the sender had seen. `imp` is set to its number, or to 0,
 * forwarding. It takes the lock after a miss. Trusted: this code, and the lock.
 *
 * Faults: MSG_NO_CLASS, MSG_NO_SELECTOR.
 * Cost: msg_probe, and after a miss the lock and msg_fill. */
static inline uint32_t msg_find(msg_runtime *runtime, MSG_LOCK_TYPE *lock,
                                msg_sender *sender, uint32_t number, bool meta,
                                uint32_t sel, uint32_t *imp)
{
    MSG_TEST(runtime && lock && sender && imp);
    MSG_TEST(sender->open == (sender->at != 0));
    uint32_t answer = msg_probe(sender, number, meta, sel, imp);
    if (answer != MSG_MISSED) return answer;
    MSG_LOCK(lock);
    MSG_TEST(runtime->open == (runtime->at != 0));
    answer = msg_fill(runtime, sender, number, meta, sel, imp);
    MSG_UNLOCK(lock);
    return answer;
}

/* Finds several as one: what msg_probe_all says, and after a miss msg_fill_all
 * under the lock, once. Two calls of msg_find may be from before and after a
 * change; these never are. `imps` has `count` entries. Trusted: this code, and
 * the lock.
 *
 * Faults: MSG_NO_CLASS, MSG_NO_SELECTOR, MSG_BAD_CHANGE, as of msg_probe_all.
 * Cost: msg_probe_all, and after a miss the lock and msg_fill_all. */
static inline uint32_t msg_find_all(msg_runtime *runtime, MSG_LOCK_TYPE *lock,
                                    msg_sender *sender,
                                    const msg_lookup_row *lookups, size_t count,
                                    uint32_t *imps, size_t *place)
{
    MSG_TEST(runtime && lock && sender && place);
    MSG_TEST(sender->open == (sender->at != 0));
    uint32_t answer = msg_probe_all(sender, lookups, count, imps, count, place);
    if (answer != MSG_MISSED) return answer;
    MSG_LOCK(lock);
    MSG_TEST(runtime->open == (runtime->at != 0));
    answer = msg_fill_all(runtime, sender, lookups, count, imps, count, place);
    MSG_UNLOCK(lock);
    return answer;
}

#endif
