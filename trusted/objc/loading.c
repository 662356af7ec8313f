/* Modules: classes are taken when their superclass is there; categories and constant objects wait
 * for their class; +load is sent once, a superclass's first. Trusted: that what a module says is
 * taken once, in the order of classes above others, and that all of it is brought before it is
 * made. */
#include "shim.h"
#include <link.h>
#include <dlfcn.h>
#include <stdio.h>

void (*_objc_load_callback)(Class, struct objc_category *);

/* The first `tried` wait for more than there was when `tried_at` was so. */
struct waiting {
    void **rows;
    uint32_t count, room, tried, tried_at;
};
static struct waiting classes, categories, constants;

/* What is to be done without the lock, in order: a +load that is sent, or, without an
 * implementation, the callback of a class or category. */
struct load {
    Class class_;
    struct objc_category *category;
    IMP imp;
    SEL sel;
};
static struct load *loads;
static uint32_t load_count, load_room, loaded_count;

static void note_load(Class class_, struct objc_category *category, IMP imp, SEL sel)
{
    loads = shim_more(loads, load_count, &load_room, sizeof *loads);
    loads[load_count++] = (struct load){class_, category, imp, sel};
}

/* The first method of a name in the newest list counts: a category's stands before the class's. */
static void take_method(Class class_, struct record *record, Method method)
{
    const char *name = method->name.text;
    method->name.sel = shim_lasting_selector(name, method->types);
    if (record->meta && !strcmp(name, "load"))
        note_load(class_, NULL, method->imp, method->name.sel);
    shim_bring_method(record, method);
}

static void take_lists(Class class_, struct record *record, struct method_list *list)
{
    if (!list) return;
    take_lists(class_, record, list->next);
    for (int32_t i = list->count; i-- > 0;) take_method(class_, record, &list->rows[i]);
}

static void take_class(Class class_, Class above)
{
    Class meta = class_->isa;
    class_->superclass.class_ = above;
    meta->superclass.class_ = above ? above->isa : class_;
    meta->isa = above ? above->isa->isa : meta;
    shim_new_record(class_);
    shim_new_record(meta);
    shim_number_class(class_);
    note_load(class_, NULL, NULL, NULL);
    shim_bring_class(class_);
    take_lists(class_, class_->record, class_->methods);
    take_lists(class_, meta->record, meta->methods);
    shim_take_protocols(class_->protocols);
}

/* A class for which there is no number waits, as one without its superclass. */
static bool has_number(Class class_)
{
    static bool told;
    bool has = shim_has_class_number();
    if (!has && !told)
        fprintf(stderr, "objc: no class number is left for %s (MSG_CLASSES)\n", class_->name);
    told = told || !has;
    return has;
}

/* Whether the class no longer waits: a second class of a name is left aside. */
static bool try_class(void *row)
{
    Class class_ = row;
    Class above = class_->superclass.text ? shim_class_coming(class_->superclass.text) : NULL;
    if (class_->superclass.text && !above) return false;
    if (shim_class_coming(class_->name)) return true;
    if (!has_number(class_)) return false;
    take_class(class_, above);
    return true;
}

/* A metaclass may have been given others than its class, so it has a list of its own. */
static void adopt(Class class_, struct protocol_list *list)
{
    struct protocol_list **end = &list;
    shim_take_protocols(list);
    for (struct protocol_list *one = list; one; one = one->next) {
        size_t size = sizeof *one + one->count * sizeof *one->rows;
        struct protocol_list *copy = memcpy(shim_memory(size), one, size);
        copy->next = class_->isa->protocols;
        class_->isa->protocols = copy;
    }
    while (*end) end = &(*end)->next;
    *end = class_->protocols;
    class_->protocols = list;
}

static bool try_category(void *row)
{
    struct objc_category *category = row;
    Class class_ = shim_class_coming(category->class_name);
    if (!class_) return false;
    note_load(class_, category, NULL, NULL);
    take_lists(class_, class_->record, category->methods);
    take_lists(class_, class_->isa->record, category->class_methods);
    adopt(class_, category->protocols);
    return true;
}

static bool try_constants(void *row)
{
    struct constants *list = row;
    Class class_ = shim_class_named(list->class_name);
    if (!class_) return false;
    for (id *object = list->rows; *object; object++)
        if (class_ == &shim_protocol) shim_take_protocol((struct protocol *)*object);
        else (*object)->isa = class_;
    return true;
}

/* Those that no longer wait leave; the others keep their order. Nothing is tried again before there
 * are more classes, or a number for one. */
static bool try_all(struct waiting *all, bool (*try_one)(void *))
{
    uint32_t now = 2 * shim_class_count + shim_has_class_number(), count = all->count;
    uint32_t left = now == all->tried_at ? all->tried : 0;
    for (uint32_t i = left; i < count; i++)
        if (!try_one(all->rows[i])) all->rows[left++] = all->rows[i];
    all->count = all->tried = left;
    all->tried_at = now;
    return left < count;
}

static void wait_row(struct waiting *all, void *row)
{
    all->rows = shim_more(all->rows, all->count, &all->room, sizeof row);
    all->rows[all->count++] = row;
}

bool shim_is_waiting(const char *name)
{
    for (uint32_t i = 0; i < classes.count; i++)
        if (!strcmp(((Class)classes.rows[i])->name, name)) return true;
    return false;
}

static void take_symbols(struct symbols *symbols)
{
    for (struct objc_selector *sel = symbols->refs; sel && sel->name.text; sel++)
        shim_take_selector(sel);
    void **at = symbols->defs + symbols->class_count;
    /* GCC lists the last first */
    for (uint32_t i = symbols->class_count; i--;) wait_row(&classes, symbols->defs[i]);
    for (uint32_t i = 0; i < symbols->category_count; i++) wait_row(&categories, *at++);
    for (struct constants **list = *at; list && *list; list++) wait_row(&constants, *list);
}

static bool next_load(struct load *load)
{
    LOCKED;
    bool some = loaded_count < load_count;
    if (some) *load = loads[loaded_count++];
    else loaded_count = load_count = 0;
    return some;
}

static void send_loads(void)
{
    struct load load;
    while (next_load(&load)) {
        if (load.imp) load.imp((id)load.class_, load.sel);
        else if (_objc_load_callback) _objc_load_callback(load.class_, load.category);
    }
}

/* Names, classes and methods are used where they lie, so no dlclose takes what brings a module
 * away. Once for each: the modules of one come in turn. The program itself has no name. */
static void keep_loaded(const struct module *module)
{
    static _Atomic(struct link_map *) last;
    struct dl_find_object found;
    if (_dl_find_object((void *)module, &found)) return;
    struct link_map *of = found.dlfo_link_map;
    if (atomic_exchange(&last, of) == of || !*of->l_name) return;
    void *handle = dlopen(of->l_name, RTLD_LAZY | RTLD_NOLOAD | RTLD_NODELETE);
    if (handle) dlclose(handle);
}

/* What a module brings, and what waited for that, is one change. */
static void take_module(struct module *module)
{
    static bool has_roots;
    LOCKED;
    if (!has_roots) take_symbols(shim_roots.symbols);
    has_roots = true;
    if (module != &shim_roots) take_symbols(module->symbols);
    while (try_all(&classes, try_class)) {}
    try_all(&categories, try_category);
    shim_make(module->name);
    try_all(&constants, try_constants);
}

/* A program may have no module, and those of others may come before. */
void shim_take_roots(void) { take_module(&shim_roots); }

void __objc_exec_class(struct module *module)
{
    if (module->version != 8 || module->size != sizeof *module)
        shim_stop("a module of another version", module->name);
    keep_loaded(module);
    take_module(module);
    send_loads();
}
