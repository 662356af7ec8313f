/* Sends: +initialize before a class's first, and then what the proved dispatcher finds. Trusted:
 * that +initialize is sent before the first message and once, and that what is found is what the
 * library answers. */
#include "seat.h"

/* The thread that sends +initialize may send to the class meanwhile; others wait for it. How often
 * the thread has the lock is known here alone, so the thread of a forked child gives what it took
 * before. */
static pthread_mutex_t initializing = PTHREAD_MUTEX_INITIALIZER;
static _Thread_local uint32_t depth;

void shim_take_initialize(void)
{
    if (!depth) pthread_mutex_lock(&initializing);
    depth++;
}

void shim_give_initialize(void)
{
    if (!--depth) pthread_mutex_unlock(&initializing);
}

static void give_initialize(char *unused) { shim_give_initialize(); }

id nil_method(id self, SEL sel, ...) { return self; }

/* Also where its +initialize was left by an exception: the class is as it would have been. */
static void end_initialize(Class *ending)
{
    Class class_ = *ending;
    atomic_store(&class_->record->initialized, DONE);
    STORE(class_->key, shim_class_key(class_->record));
    STORE(class_->isa->key, shim_class_key(class_->isa->record));
}

static void initialize(Class class_)
{
    SEL sel = &shim_own[INITIALIZE];
    shim_take_initialize();
    char taken AT_END(give_initialize);
    Class above = class_->superclass.class_;
    if (above) initialize(above);
    if (atomic_load(&class_->record->initialized) != NOT_YET) return;
    atomic_store(&class_->record->initialized, RUNNING);
    Class ending AT_END(end_initialize) = class_;
    IMP imp = shim_look(class_->isa, sel);
    if (imp) imp((id)class_, sel);
}

static Class plain_class(Class class_) { return shim_classes[class_->record->number]; }

static void ensure_initialized(Class class_)
{
    Class plain = plain_class(class_);
    if (atomic_load_explicit(&plain->record->initialized, memory_order_acquire) != DONE)
        initialize(plain);
}

/* The function that the first note says, or NULL, which is number 0's, where it says that the
 * lookup finds nothing. */
static inline bool noted(Class class_, SEL sel, IMP *imp)
{
    uint32_t number;
    if (!shim_note(class_, sel, &number)) return false;
    *imp = shim_function(number);
    return true;
}

/* What the rows say: in a handler of a signal that can't have the lock. */
static __attribute__((noinline, cold)) IMP find_in_rows(Class class_, SEL sel, uint32_t fault)
{
    if (fault != MSG_LOCK_HELD) shim_must(fault, "find");
    Method method = shim_standing(class_, shim_sel(sel));
    return method ? shim_imp(method) : NULL;
}

/* What the calling thread's sender finds by their key, by all changes that returned before; NULL is
 * forwarding. */
static inline IMP find_by_key(Class class_, SEL sel, uint64_t key, bool unnoted)
{
    uint32_t imp, fault = unnoted ? msg_process_find_unnoted(key, MSG_WAITS_A_WHILE, &imp)
                                  : msg_process_find_slowly(key, MSG_WAITS_A_WHILE, &imp);
    return __builtin_expect(!fault, 1) ? shim_function(imp) : find_in_rows(class_, sel, fault);
}

static __attribute__((noinline)) IMP find(Class class_, SEL sel)
{
    if (shim_in_construction(class_)) return find_in_rows(class_, sel, MSG_LOCK_HELD);
    return find_by_key(class_, sel, shim_key(class_->record, sel), false);
}

IMP shim_look(Class class_, SEL sel)
{
    IMP imp;
    return noted(class_, sel, &imp) ? imp : find(class_, sel);
}

/* Whether a thread's note said so that isn't older than the stamp of the metaclass: it is then so
 * for all threads. */
static inline bool has_no_resolver(const struct record *of)
{
    msg_note none = {.count = LOAD(of->unresolved), .stamp = LOAD(of->resolver_stamp)};
    return none.count >= msg_process_stamp(&none);
}

static __attribute__((noinline)) void keep_unresolved(struct record *of, Class metaclass, SEL asked)
{
    msg_note none;
    if (!shim_note_of(MSG_SAID_NONE, metaclass, asked, &none)) return;
    STORE(of->resolver_stamp, none.stamp);
    STORE(of->unresolved, none.count);
}

static inline bool resolve(Class class_, SEL sel)
{
    IMP imp;
    Class plain = plain_class(class_);
    SEL asked = &shim_own[class_->record->meta ? RESOLVE_CLASS : RESOLVE_INSTANCE];
    if (!noted(plain->isa, asked, &imp)) imp = find(plain->isa, asked);
    if (!imp) keep_unresolved(class_->record, plain->isa, asked);
    return __builtin_expect(imp != NULL, 0) &&
           ((BOOL(*)(id, SEL, SEL))(void (*)(void))imp)((id)plain, asked, sel);
}

/* Asks the class to add a method that it lacks: whether it says that it has. Of a class method one
 * that has no resolver isn't asked, and so isn't initialized. */
bool shim_resolve(Class class_, SEL sel)
{
    if (shim_in_construction(class_)) return false;
    Class plain = plain_class(class_);
    if (class_ != plain && !shim_look(plain->isa, &shim_own[RESOLVE_CLASS])) return false;
    ensure_initialized(class_);
    return resolve(class_, sel);
}

/* Where it is noted that nothing is found, or was found to be so: NULL is forwarding. */
static __attribute__((noinline)) IMP find_resolved(Class class_, SEL sel)
{
    if (has_no_resolver(class_->record)) return NULL;
    return resolve(class_, sel) ? shim_look(class_, sel) : NULL;
}

/* Before a class's first message has returned. */
static __attribute__((noinline, cold)) IMP find_first(Class class_, SEL sel)
{
    if (!class_->record) shim_stop("a class is used before its superclass is there", class_->name);
    if (shim_in_construction(class_)) return shim_look(class_, sel);
    ensure_initialized(class_);
    IMP imp = shim_look(class_, sel);
    return imp ? imp : find_resolved(class_, sel);
}

/* Where neither note has a function's number; `said` is of the second one. A class that was
 * initialized has its part of keys. */
static __attribute__((noinline)) IMP find_slowly(id receiver, SEL sel, Class class_, uint64_t said)
{
    uint64_t of_class = LOAD(class_->key);
    bool is_first = __builtin_expect(!of_class, 0);
    IMP imp = is_first ? find_first(class_, sel)
                       : find_by_key(class_, sel, of_class + sel->name.key, said > MSG_SAID_NONE);
    if (__builtin_expect(!imp, 0) && !is_first) imp = find_resolved(class_, sel);
    return __builtin_expect(imp != NULL, 1) ? imp : shim_forward(receiver, sel);
}

/* Where the first note says nothing. */
static __attribute__((noinline)) IMP find_from(id receiver, SEL sel, Class class_)
{
    uint64_t said = shim_said_second(class_, sel);
    if (__builtin_expect(said < MSG_SAID_LONG, 1)) return shim_function((uint32_t)said);
    return find_slowly(receiver, sel, class_, said);
}

/* Where the first note says that there is no method, or has a long number. */
static __attribute__((noinline)) IMP find_long(id receiver, SEL sel, Class class_)
{
    IMP imp;
    if (!noted(class_, sel, &imp)) return find_from(receiver, sel, class_);
    if (!imp) imp = find_resolved(class_, sel);
    return imp ? imp : shim_forward(receiver, sel);
}

/* Where a note may say more than the function's number. */
static inline IMP find_noted(id receiver, SEL sel, Class class_, uint64_t said)
{
    if (said > MSG_SAID_NONE) return find_from(receiver, sel, class_);
    return find_long(receiver, sel, class_);
}

/* At the begin of a line of the cache, as it is wherever the linker puts it. */
__attribute__((aligned(LINE))) IMP objc_msg_lookup(id receiver, SEL sel)
{
    if (__builtin_expect(!receiver, 0)) return nil_method;
    Class class_ = shim_class_of(receiver);
    uint64_t said = shim_said_at(class_, sel);
    if (__builtin_expect(said < MSG_SAID_LONG, 1)) return shim_function((uint32_t)said);
    if (said == MSG_SAID_NONE && has_no_resolver(class_->record))
        return shim_forward(receiver, sel);
    return find_noted(receiver, sel, class_, said);
}

/* Of a class that may be NULL, as above a root. */
static inline IMP find_for(id receiver, Class class_, SEL sel)
{
    if (!class_) shim_stop("a root class has no super to be sent", sel_getName(sel));
    uint64_t said = shim_said_at(class_, sel);
    if (__builtin_expect(said < MSG_SAID_LONG, 1)) return shim_function((uint32_t)said);
    return find_noted(receiver, sel, class_, said);
}

IMP objc_msg_lookup_super(struct objc_super *super_, SEL sel)
{
    return super_->self ? find_for(super_->self, super_->class_, sel) : nil_method;
}

IMP class_getMethodImplementation(Class class_, SEL sel)
{
    return class_ && sel ? find_for(NULL, class_, sel) : NULL;
}

/* An older name. */
IMP get_imp(Class class_, SEL sel) { return class_getMethodImplementation(class_, sel); }

static __attribute__((noinline)) bool finds(Class class_, SEL sel)
{
    if (!class_->record) return false;
    if (!shim_in_construction(class_)) ensure_initialized(class_);
    return shim_look(class_, sel);
}

/* As over libobjc, no resolver is asked. */
BOOL class_respondsToSelector(Class class_, SEL sel)
{
    if (!class_ || !sel) return false;
    uint64_t said = shim_said_at(class_, sel);
    return said < MSG_SAID_NONE || (said != MSG_SAID_NONE && finds(class_, sel));
}

/* In no header; programs ask it. */
BOOL __objc_responds_to(id object, SEL sel)
{
    return object && class_respondsToSelector(shim_class_of(object), sel);
}
