/* What the files of the shim share. All of it is called under the lock of the process's runtime
 * where nothing else is said. Trusted: as the files that it names. */
#ifndef MSG_OBJC_SHIM_H
#define MSG_OBJC_SHIM_H

#include "abi.h"
#include "msg_runtime.h"
#include <pthread.h>
#include <stdatomic.h>
#include <stdlib.h>
#include <string.h>

/* Of the process's layer nothing is seen outside of the shim, so it is reached without a table of a
 * shared library's. */
#pragma GCC visibility push(hidden)
#include "msg_process.h"
#pragma GCC visibility pop

/* Calls of the interface are given more than some need. */
#pragma GCC diagnostic ignored "-Wunused-parameter"

_Static_assert(sizeof(void *) == 8 && __BYTE_ORDER__ == __ORDER_LITTLE_ENDIAN__,
               "notes, keys and exception tables are read so");

/* Of class numbers the tables reserve as many as runtime.c says; the others are address space until
 * they are used. */
#ifndef MSG_ROOM
#define MSG_ROOM 24 /* bits of a selector's number, and of an implementation's */
#endif
enum { MOST_SELECTORS = (1 << MSG_ROOM) - 1, MOST_IMPS = (1 << MSG_ROOM) - 1 };
enum { MOST_CLASSES = (1 << 20) - 1, LINE = 64 };

/* A method of a class: what the proved tables hold, kept beside them, since they know numbers
 * alone. Handlers of signals read rows without the lock. */
struct row {
    struct row *before;
    Method method;
    uint32_t sel;
};

enum { NOT_YET, RUNNING, DONE };

/* `number` is 0 for a class in construction, which the tables don't hold, and a metaclass's is its
 * class's. `rows`: all its methods, the newest first. Of a name the newest counts. */
struct record {
    bool meta;
    uint32_t number;
    struct row *rows;
    /* After how many changes a note said that it has no resolver, and where the stamp lies of the
     * metaclass that was asked. Of none 0, and 0: the count of changes, which is above that. */
    uint64_t unresolved, resolver_stamp;
    atomic_int initialized;
};

/* By number, from 1; class 0 of the tables is never made. */
extern Class shim_classes[MOST_CLASSES + 1];
extern uint32_t shim_class_count, shim_class_room;

/* Calls of the interface that several files make: without the lock. */
IMP objc_msg_lookup(id receiver, SEL sel);
const char *sel_getName(SEL sel);
BOOL sel_isEqual(SEL one, SEL other);
Class objc_getClass(const char *name);
Class class_getSuperclass(Class class_);
BOOL class_isMetaClass(Class class_);
const char *object_getClassName(id object);
BOOL protocol_isEqual(Protocol *protocol, Protocol *other);
int objc_sizeof_type(const char *type);
const char *objc_skip_type_qualifiers(const char *type);
const char *objc_skip_typespec(const char *type);
const char *objc_skip_argspec(const char *type);

/* names.c. Without the lock: what takes memory ends the program where there is none. */
_Noreturn void shim_stop(const char *why, const char *what);
void *shim_or_stop(void *memory, const char *what);
void *shim_memory(size_t size);
char *shim_copy(const char *text);
void shim_take_secret(void); /* before anything is numbered */
uint32_t shim_mixed(const char *name);
uint32_t shim_mixed_word(uintptr_t word);
/* Numbers by what they are of, which a word is mixed from; also found without the lock. A number is
 * put there once, by which a larger array may take the place of one: what is answered may be freed
 * once nobody reads it. */
struct places {
    struct places *before;
    uint32_t last;
    _Atomic(uint64_t) at[];
};
struct index {
    _Atomic(struct places *) places;
    uint32_t count;
};
uint32_t shim_number_in(const struct index *index, uint32_t mixed,
                        bool (*is)(uint32_t number, const void *it), const void *it);
void *shim_index(struct index *index, uint32_t mixed, uint32_t number);
/* The same rows, with room for one more. */
void *shim_more(void *rows, uint32_t count, uint32_t *room, size_t size);
/* For a caller's own: room for so many rows and an empty one, or NULL for none; and they are
 * counted where that is asked. */
void *shim_list(size_t many, size_t size, unsigned int *count);

/* A lock, or none where it is NULL, to the end of the block, also where an exception leaves it. */
static inline pthread_mutex_t *shim_hold(pthread_mutex_t *lock)
{
    if (lock) pthread_mutex_lock(lock);
    return lock;
}
static inline void shim_unlock(pthread_mutex_t **lock)
{
    if (*lock) pthread_mutex_unlock(*lock);
}
#define AT_END(give) __attribute__((cleanup(give), unused))
#define HOLDING(lock) pthread_mutex_t *held AT_END(shim_unlock) = shim_hold(lock)
/* The runtime's, in the same way, to ask and to change the tables. */
void shim_take(void);
static inline void shim_give(char *unused) { msg_process_unlock(); }
#define LOCKED \
    shim_take(); \
    char locked AT_END(shim_give)

/* What threads share without a lock: with what was written before it was stored. */
#define LOAD(place) __atomic_load_n(&(place), __ATOMIC_ACQUIRE)
#define STORE(place, value) __atomic_store_n(&(place), value, __ATOMIC_RELEASE)

/* Selectors that the shim sends itself, by fixed numbers from 1. */
/* clang-format off */
#define OWN_SELECTORS(S) \
    S(INITIALIZE, "initialize") S(RESOLVE_INSTANCE, "resolveInstanceMethod:") \
    S(RESOLVE_CLASS, "resolveClassMethod:") S(FORWARD, "forward::") \
    S(NOT_RECOGNIZED, "doesNotRecognize:") S(RETAIN, "retain") S(RELEASE, "release") \
    S(AUTORELEASE, "autorelease") S(COPY, "copyWithZone:") S(MUTABLE_COPY, "mutableCopyWithZone:")
/* clang-format on */
#define OWN_NUMBER(number, text) number,
enum { NO_SELECTOR, OWN_SELECTORS(OWN_NUMBER) FIRST_FREE };
extern const struct objc_selector shim_own[FIRST_FREE];

static inline uint32_t shim_sel(SEL sel) { return MSG_SEL_OF(sel->name.key); }

/* names.c: the program ends where no number is left. Texts that last, a module's, aren't copied. */
SEL shim_typed_selector(uint32_t number, const char *types, bool lasts);
SEL shim_lasting_selector(const char *name, const char *types);
void shim_take_selector(struct objc_selector *sel);
uint32_t shim_number(IMP imp);

/* classes.c */
Class shim_class_named(const char *name);  /* without the lock */
Class shim_class_coming(const char *name); /* or one that is numbered and not yet found by others */
void shim_new_record(Class class_);
bool shim_has_class_number(void);
void shim_number_class(Class class_);
/* Those that are numbered are found by their names from now on: the tables have them. */
void shim_publish(void);
static inline bool shim_in_construction(Class of)
{
    return of->record && !LOAD(of->record->number);
}
/* A class's part of its keys, which is 0 of number 0 alone; and a whole key. */
static inline uint64_t shim_class_key(const struct record *record)
{
    return (2 * record->number + record->meta) * MSG_KEY_OF_SLOT;
}
static inline uint64_t shim_key(const struct record *record, SEL sel)
{
    return shim_class_key(record) + sel->name.key;
}

/* roots.c: the module of Object, Protocol and NXConstantString; loading.c takes it. */
extern struct module shim_roots;
extern struct objc_class shim_protocol;
void shim_take_roots(void);

/* loading.c: whether a module's class of this name waits for its superclass */
bool shim_is_waiting(const char *name);

/* protocols.c */
void shim_take_protocol(struct protocol *protocol);
void shim_take_protocols(struct protocol_list *list);

/* changing.c: what a module or a class pair brings, in the order in which it counts, and then all
 * of it as one change. */
void shim_bring_class(Class class_); /* with the methods that it has by now */
void shim_bring_method(struct record *record, Method method);
void shim_make(const char *what);
Method shim_standing(Class class_, uint32_t sel); /* what the rows say; also without the lock */
static inline IMP shim_imp(Method method) { return LOAD(method->imp); }

/* sending.c: without the lock. A look is without +initialize; to resolve is with it. */
IMP shim_look(Class class_, SEL sel);
bool shim_resolve(Class class_, SEL sel);
void shim_take_initialize(void); /* the lock of all +initialize, as often as it is given */
void shim_give_initialize(void);

/* threads.c, and what it asks for a fork of the files that have locks of their own. */
void shim_care_for_forks(void);
void shim_renew_property_locks(void);

/* Another thread may set an object's class meanwhile, as observing a key does. */
static inline Class shim_class_of(id object) { return LOAD(object->isa); }

/* forwarding.c: what is called where no method is found. Without the lock. */
IMP shim_forward(id receiver, SEL sel);

/* report.c, without the lock */
void shim_report(void);

/* runtime.c */
extern msg_runtime *shim_runtime;
void shim_must(uint32_t fault, const char *what); /* or the program ends */

#endif
