/* Classes by name and by number, and classes that are made at run time. Trusted: that a name finds
 * the class that has it, once the tables have it, and that a class is freed only before it has a
 * number. */
#include "shim.h"

typedef Class (*finder)(const char *name);
enum { GUESSES = 1024 };

Class shim_classes[MOST_CLASSES + 1];
uint32_t shim_class_count, shim_class_room;
static uint32_t in_construction; /* for which a number is kept */
static _Atomic(uint32_t) made;   /* the tables have the classes of the numbers up to this */
static struct index by_name;     /* what it leaves isn't freed: it is read without the lock */
/* What was found of a name that lay at such an address: its text says whether it is meant. */
static _Atomic(Class) guesses[GUESSES];
static _Atomic(finder) unknown_class;
finder _objc_lookup_class; /* an older hook, where there is no handler */

static bool is_named(uint32_t at, const void *it) { return !strcmp(shim_classes[at]->name, it); }

/* No class leaves it. */
static Class named(const char *name, uint32_t last)
{
    uint32_t number = shim_number_in(&by_name, shim_mixed(name), is_named, name);
    return number <= last ? shim_classes[number] : NULL;
}

/* A program asks by the same text at the same address each time. */
Class shim_class_named(const char *name)
{
    _Atomic(Class) *guess = &guesses[(uintptr_t)name % GUESSES];
    Class class_ = atomic_load_explicit(guess, memory_order_acquire);
    if (class_ && !strcmp(class_->name, name)) return class_;
    class_ = named(name, atomic_load_explicit(&made, memory_order_acquire));
    if (class_) atomic_store_explicit(guess, class_, memory_order_release);
    return class_;
}

Class shim_class_coming(const char *name) { return named(name, MOST_CLASSES); }
void shim_publish(void) { atomic_store(&made, shim_class_count); }

void shim_new_record(Class class_)
{
    struct record *record = shim_memory(sizeof *record);
    record->meta = class_isMetaClass(class_);
    STORE(class_->record, record); /* its superclass is one by now */
}

bool shim_has_class_number(void) { return shim_class_count + in_construction < shim_class_room; }

/* The class and its metaclass have records. */
void shim_number_class(Class class_)
{
    shim_classes[++shim_class_count] = class_;
    STORE(class_->isa->record->number, shim_class_count);
    STORE(class_->record->number, shim_class_count); /* other threads may ask (in construction) */
    shim_index(&by_name, shim_mixed(class_->name), shim_class_count);
}

Class objc_lookUpClass(const char *name) { return name ? shim_class_named(name) : NULL; }

Class objc_getClass(const char *name)
{
    Class class_ = objc_lookUpClass(name);
    if (class_ || !name) return class_;
    finder find = atomic_load(&unknown_class);
    if (!find) find = LOAD(_objc_lookup_class);
    return find ? find(name) : NULL;
}

Class objc_getRequiredClass(const char *name)
{
    Class class_ = objc_getClass(name);
    if (!class_) shim_stop("no such class", name ? name : "NULL");
    return class_;
}

static Class meta_of(Class class_) { return class_ ? class_->isa : NULL; }

Class objc_getMetaClass(const char *name) { return meta_of(objc_getClass(name)); }
Class objc_get_class(const char *name) { return objc_getRequiredClass(name); }
Class objc_get_meta_class(const char *name) { return meta_of(objc_getRequiredClass(name)); }
Class objc_lookup_class(const char *name) { return objc_getClass(name); } /* as clang asks */

finder objc_setGetUnknownClassHandler(finder to) { return atomic_exchange(&unknown_class, to); }

int objc_getClassList(Class *into, int most)
{
    LOCKED;
    int count = into && most < (int)shim_class_count ? most : (int)shim_class_count;
    if (count < 0) count = 0;
    if (into) memcpy(into, shim_classes + 1, (size_t)count * sizeof *into);
    return count;
}

const char *class_getName(Class class_) { return class_ ? class_->name : "nil"; }
BOOL class_isMetaClass(Class class_) { return class_ && class_->info & CLASS_META; }
int class_getVersion(Class class_) { return class_ ? (int)class_->version : 0; }
void class_setVersion(Class class_, int version)
{
    if (class_) class_->version = version;
}
size_t class_getInstanceSize(Class class_) { return class_ ? (size_t)class_->instance_size : 0; }

/* Of a class whose superclass isn't there yet only the name is known. */
Class class_getSuperclass(Class class_)
{
    if (!class_) return NULL;
    if (LOAD(class_->record)) return class_->superclass.class_;
    LOCKED;
    return class_->record ? class_->superclass.class_ : objc_lookUpClass(class_->superclass.text);
}

static Class new_class(Class above, size_t extra, unsigned long info)
{
    Class class_ = extra < SIZE_MAX - sizeof *class_ ? calloc(1, sizeof *class_ + extra) : NULL;
    if (!class_) return NULL;
    class_->info = info;
    class_->superclass.class_ = above;
    class_->instance_size = above ? above->instance_size : (long)sizeof(struct objc_object);
    shim_new_record(class_);
    return class_;
}

/* Of a list whose rows begin with the next. */
static void free_list(void *row)
{
    for (void *next; row; row = next) {
        next = *(void **)row;
        free(row);
    }
}

static void free_class(Class class_)
{
    if (!class_) return;
    struct record *record = class_->record;
    for (int32_t i = 0; class_->ivars && i < class_->ivars->count; i++) {
        free((char *)class_->ivars->rows[i].name);
        free((char *)class_->ivars->rows[i].type);
    }
    for (struct row *row = record->rows; row; row = row->before) {
        free((char *)row->method->types);
        free(row->method);
    }
    free(class_->ivars);
    free_list(class_->protocols);
    free_list(record->rows);
    free(record);
    free(class_);
}

Class objc_allocateClassPair(Class superclass, const char *name, size_t extra)
{
    if (!name || objc_lookUpClass(name)) return NULL;
    if (superclass && (!superclass->record || shim_in_construction(superclass))) return NULL;
    if (class_isMetaClass(superclass)) return NULL;
    LOCKED;
    if (!shim_has_class_number() || shim_is_waiting(name)) return NULL;
    Class class_ = new_class(superclass, extra, CLASS_PLAIN);
    Class above = superclass ? superclass->isa : class_;
    Class meta = class_ ? new_class(above, extra, CLASS_META) : NULL;
    if (!meta) {
        free_class(class_);
        return NULL;
    }
    class_->name = meta->name = shim_copy(name);
    if (!superclass) meta->instance_size = sizeof(struct objc_class);
    class_->isa = meta;
    meta->isa = superclass ? superclass->isa->isa : meta;
    in_construction++;
    return class_;
}

void objc_registerClassPair(Class class_)
{
    if (!class_ || class_isMetaClass(class_)) return;
    LOCKED;
    if (!shim_in_construction(class_) || shim_class_named(class_->name)) return;
    if (shim_is_waiting(class_->name)) return;
    in_construction--;
    shim_number_class(class_);
    shim_bring_class(class_);
    shim_make(class_->name);
}

void objc_disposeClassPair(Class class_)
{
    if (!class_ || class_isMetaClass(class_)) return;
    LOCKED;
    if (!shim_in_construction(class_)) return;
    in_construction--;
    free((char *)class_->name);
    free_class(class_->isa);
    free_class(class_);
}
