/* Methods that stand in classes, and changes of them: by the proved calls of the tables and then of
 * the rows, under one lock. So what a row says nobody finds otherwise by the tables later; and what
 * it no longer says, nobody has found before by them, since what was changed is found anew under
 * the lock alone. Trusted: this order, that rows and tables say the same after each change, and
 * that of what a module brings no name is found before the tables have all of it. */
#include "seat.h"
#include "msg_objc.h"

/* A method that gets a function: of the record's class, or, where there is no record, of none.
 * Where it is NULL it is new. `before`: what was called. */
struct part {
    struct record *record;
    Method method;
    SEL sel;
    IMP imp, before;
    const char *types;
};

static Method method_of(const struct record *record, uint32_t sel)
{
    const struct row *row = LOAD(record->rows);
    while (row && row->sel != sel) row = row->before;
    return row ? row->method : NULL;
}

/* Goes through a class in construction, which has no place in the tables, to its superclass. */
Method shim_standing(Class class_, uint32_t sel)
{
    Method method = NULL;
    for (; class_ && !method; class_ = class_->superclass.class_)
        method = method_of(class_->record, sel);
    return method;
}

static struct record *record_at(uint32_t number, bool meta)
{
    Class class_ = shim_classes[number];
    return (meta ? class_->isa : class_)->record;
}

/* By a method where it may stand: a slot of the tables, whose rows say whether it does. */
static struct index homes;

static bool is_home(uint32_t slot, const void *method)
{
    return method_of(record_at(slot / 2, slot % 2), shim_sel(((Method)method)->name.sel)) == method;
}

/* Where a method stands, or NULL, as of one of a class in construction. */
static struct record *home_of(Method method)
{
    uint32_t mixed = shim_mixed_word((uintptr_t)method);
    uint32_t slot = method ? shim_number_in(&homes, mixed, is_home, method) : 0;
    return slot ? record_at(slot / 2, slot % 2) : NULL;
}

static void note_home(const struct record *record, Method method)
{
    uint32_t slot = 2 * record->number + record->meta;
    if (record->number) free(shim_index(&homes, shim_mixed_word((uintptr_t)method), slot));
}

static void stand(struct record *record, Method method, struct row *row)
{
    *row = (struct row){record->rows, method, shim_sel(method->name.sel)};
    STORE(record->rows, row);
    note_home(record, method);
}

static msg_change replacing(const struct record *of, SEL sel, IMP imp)
{
    return (msg_change){MSG_REPLACES,     of->number, of->meta, shim_sel(sel),
                        shim_number(imp), 0,          0,        0};
}

/* ---- what a module or a class pair brings, until it is made ---- */

static msg_change *changes;
static Method *coming; /* of each change: to the rows, or NULL */
static uint32_t coming_count, coming_room, change_count, change_room;

static void bring(msg_change change, Method comes)
{
    changes = shim_more(changes, change_count, &change_room, sizeof *changes);
    coming = shim_more(coming, change_count, &coming_room, sizeof *coming);
    coming_count += comes != NULL;
    changes[change_count] = change;
    coming[change_count++] = comes;
}

void shim_bring_method(struct record *record, Method method)
{
    bring(replacing(record, method->name.sel, method->imp), method);
}

void shim_bring_class(Class class_)
{
    Class above = class_->superclass.class_;
    struct record *both[2] = {class_->record, class_->isa->record};
    uint32_t kind = above ? MSG_MAKES_CLASS : MSG_MAKES_ROOT_CLASS;
    bring((msg_change){kind, both[0]->number, .other = above ? above->record->number : 0}, NULL);
    for (int j = 0; j < 2; j++)
        for (struct row *row = both[j]->rows; row; row = row->before) {
            bring(replacing(both[j], row->method->name.sel, row->method->imp), NULL);
            note_home(both[j], row->method);
        }
}

void shim_make(const char *what)
{
    size_t place;
    shim_must(msg_change_all(shim_runtime, changes, change_count, &place), what);
    struct row *rows = coming_count ? shim_memory(coming_count * sizeof *rows) : NULL;
    for (uint32_t i = 0; i < change_count; i++)
        if (coming[i]) stand(record_at(changes[i].number, changes[i].meta), coming[i], rows++);
    free(coming);
    free(changes);
    coming = NULL;
    changes = NULL;
    coming_count = coming_room = change_count = change_room = 0;
    shim_publish();
}

/* ---- parts of a change that programs ask for ---- */

/* Of a method that stands, or is NULL: then there are types. */
static struct part part_of(struct record *at, Method method, SEL sel, IMP imp, const char *types)
{
    IMP before = method ? shim_imp(method) : NULL;
    return (struct part){at, method, sel, imp, before, types};
}

static Method new_method(const struct part *part)
{
    Method method = shim_memory(sizeof *method);
    SEL sel = shim_typed_selector(shim_sel(part->sel), part->types, false);
    *method = (struct objc_method){{.sel = sel}, shim_copy(part->types), part->imp};
    return method;
}

/* In the rows, after the tables. */
static inline void settle(const struct part *part)
{
    if (part->method) STORE(part->method->imp, part->imp);
    else stand(part->record, new_method(part), shim_memory(sizeof(struct row)));
}

static inline void make_one(const struct part *part)
{
    struct record *of = part->record;
    uint32_t sel = shim_sel(part->sel), number = shim_number(part->imp);
    bool is_in_tables = of && of->number;
    if (is_in_tables)
        shim_must(msg_replace(shim_runtime, of->number, of->meta, sel, number), "replace");
    settle(part);
    if (is_in_tables) msg_process_cache(shim_key(of, part->sel));
}

/* ---- as programs ask for them ---- */

/* Whether the class, which may be in construction, then has it so. `before`: what its own method
 * called; where it is NULL there may be none. */
static inline bool put(Class class_, SEL sel, IMP imp, const char *types, IMP *before)
{
    if (!class_ || !class_->record || !sel || !imp || !types) return false;
    LOCKED;
    Method method = method_of(class_->record, shim_sel(sel)), known = method;
    if (!method && before && !*types) known = shim_standing(class_, shim_sel(sel));
    if (!*types && known && known->types) types = known->types;
    if (method ? !before : !*types) return false;
    struct part part = part_of(class_->record, method, sel, imp, types);
    make_one(&part);
    if (before) *before = part.before;
    return true;
}

BOOL class_addMethod(Class class_, SEL sel, IMP imp, const char *types)
{
    return put(class_, sel, imp, types, NULL);
}

IMP class_replaceMethod(Class class_, SEL sel, IMP imp, const char *types)
{
    IMP before = NULL;
    put(class_, sel, imp, types, &before);
    return before;
}

IMP method_setImplementation(Method method, IMP imp)
{
    if (!method || !imp) return NULL;
    LOCKED;
    struct part part = part_of(home_of(method), method, method->name.sel, imp, NULL);
    make_one(&part);
    return part.before;
}

static bool plan_exchange(const struct objc_method_pair *pair, msg_change *change)
{
    struct record *here = home_of(pair->one), *there = here ? home_of(pair->other) : NULL;
    if (!there) return false;
    uint32_t sel = shim_sel(pair->one->name.sel), other_sel = shim_sel(pair->other->name.sel);
    *change = (msg_change){MSG_EXCHANGES, here->number, here->meta, sel, 0,
                           there->number, there->meta,  other_sel};
    return true;
}

size_t objc_exchange_methods(const struct objc_method_pair *pairs, size_t count)
{
    LOCKED;
    msg_change *all = shim_memory(count * sizeof *all);
    size_t place = 0;
    while (place < count && plan_exchange(&pairs[place], &all[place])) place++;
    bool made = place == count && !msg_change_all(shim_runtime, all, count, &place);
    free(all);
    for (size_t i = 0; made && i < count; i++) {
        IMP imp = shim_imp(pairs[i].one);
        STORE(pairs[i].one->imp, shim_imp(pairs[i].other));
        STORE(pairs[i].other->imp, imp);
    }
    return place;
}

/* One after the other where one stands in no class that is registered. */
void method_exchangeImplementations(Method one, Method other)
{
    if (!one || !other || objc_exchange_methods(&(struct objc_method_pair){one, other}, 1)) return;
    method_setImplementation(other, method_setImplementation(one, shim_imp(other)));
}

/* Whether the key is in the table, which has more places than keys; it is there then. */
static bool was_there(uint64_t *keys, size_t places, uint64_t key)
{
    size_t at = shim_mixed_word(key) % places;
    for (; keys[at]; at = (at + 1) % places)
        if (keys[at] == key) return true;
    keys[at] = key;
    return false;
}

static bool plan_swap(const struct objc_method_swap *it, struct part *part)
{
    struct record *record = it->class_ ? it->class_->record : NULL;
    if (!record || !record->number || !it->sel || !it->imp) return false;
    uint32_t sel = shim_sel(it->sel);
    Method method = method_of(record, sel), known = method;
    if (!known) known = shim_standing(it->class_, sel);
    const char *types = (it->types && *it->types) || !known ? it->types : known->types;
    if (!method && (!types || !*types)) return false;
    *part = part_of(record, method, it->sel, it->imp, types);
    part->before = known ? known->imp : NULL;
    return true;
}

size_t objc_replace_methods(struct objc_method_swap *rows, size_t count)
{
    LOCKED;
    struct part *parts = shim_memory(count * sizeof *parts);
    msg_change *all = shim_memory(count * sizeof *all);
    size_t place = 0, places = 2 * count + 1;
    uint64_t *keys = shim_memory(places * sizeof *keys);
    for (; place < count && plan_swap(&rows[place], &parts[place]); place++) {
        const struct part *part = &parts[place];
        if (was_there(keys, places, shim_key(part->record, part->sel))) break;
        all[place] = replacing(part->record, part->sel, part->imp);
    }
    free(keys);
    bool made = place == count && !msg_change_all(shim_runtime, all, count, &place);
    for (size_t i = 0; made && i < count; i++) settle(&parts[i]);
    for (size_t i = 0; made && i < count; i++) {
        rows[i].imp = parts[i].before;
        msg_process_cache(shim_key(parts[i].record, parts[i].sel));
    }
    free(parts);
    free(all);
    return place;
}

static bool plan_lookup(const struct objc_method_lookup *it, msg_lookup_row *row)
{
    const struct record *record = it->class_ ? it->class_->record : NULL;
    if (!record || !record->number || !it->sel) return false;
    *row = (msg_lookup_row){record->number, record->meta, shim_sel(it->sel)};
    return true;
}

/* Not under the lock: the thread's own sender finds them. */
size_t objc_lookup_methods(struct objc_method_lookup *rows, size_t count)
{
    msg_lookup_row *all = shim_memory(count * sizeof *all);
    uint32_t *imps = shim_memory(count * sizeof *imps);
    size_t place = 0;
    while (place < count && plan_lookup(&rows[place], &all[place])) place++;
    bool found = place == count && !msg_process_find_all(all, count, imps, &place);
    for (size_t i = 0; found && i < count; i++) rows[i].imp = shim_function(imps[i]);
    free(all);
    free(imps);
    return found || place < count ? place : 0;
}

static Method instance_method(Class class_, uint32_t sel)
{
    msg_class at;
    LOCKED;
    if (shim_in_construction(class_)) return shim_standing(class_, sel);
    struct record *of = class_->record;
    uint32_t fault = msg_holder(shim_runtime, of->number, of->meta, sel, &at);
    return fault ? NULL : method_of(record_at(at.number, at.meta), sel);
}

Method class_getInstanceMethod(Class class_, SEL sel)
{
    if (!class_ || !class_->record || !sel) return NULL;
    Method method = instance_method(class_, shim_sel(sel));
    return method || !shim_resolve(class_, sel) ? method : instance_method(class_, shim_sel(sel));
}

Method class_getClassMethod(Class class_, SEL sel)
{
    Class of = !class_ || class_isMetaClass(class_) ? class_ : class_->isa;
    return class_getInstanceMethod(of, sel);
}

/* The newest first. */
Method *class_copyMethodList(Class class_, unsigned int *count)
{
    LOCKED;
    struct record *record = class_ ? class_->record : NULL;
    struct row *newest = record ? record->rows : NULL;
    unsigned int many = 0;
    for (struct row *row = newest; row; row = row->before) many++;
    Method *list = shim_list(many, sizeof *list, count), *next = list;
    for (struct row *row = newest; row; row = row->before) *next++ = row->method;
    return list;
}
