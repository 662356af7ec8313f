/* trusted/objc/classes.c with small tables (three classes), run for every sequence of STEPS calls
 * that make classes at run time, with memory refused at each place, under sanitizers. */
#include "blocks.h"
#include "classes.c"
_Noreturn void shim_stop(const char *why, const char *what) { longjmp(search->out_of_run, 1); }
void *shim_memory(size_t size)
{
    void *memory = cv_calloc(1, size ? size : 1);
    if (!memory) shim_stop("no memory", "");
    return memory;
}
char *shim_copy(const char *text)
{
    char *copy = cv_strdup(text);
    if (!copy) shim_stop("no memory", "");
    return copy;
}
/* trusted/objc/names.c is checked by itself; here a list does. */
uint32_t shim_mixed(const char *name) { return 1; }
static uint32_t listed[4];
static int listed_count;
uint32_t shim_number_in(const struct index *index, uint32_t mixed,
                        bool (*is)(uint32_t number, const void *it), const void *it)
{
    for (int i = 0; i < listed_count; i++)
        if (is(listed[i], it)) return listed[i];
    return 0;
}
void *shim_index(struct index *index, uint32_t mixed, uint32_t number)
{
    listed[listed_count++] = number;
    return NULL;
}
/* No module is there. */
bool shim_is_waiting(const char *name) { return false; }
void shim_bring_class(Class class_) { }
void shim_make(const char *what) { shim_publish(); }
#ifndef STEPS
#define STEPS 5
#endif

static Class had[8];
static bool gone[8], registered[8];
static int many;

static bool allocate(void)
{
    static const char *const names[] = {"a", "b"};
    Class above = many && any_bool() ? had[pick(many)] : NULL;
    for (int k = 0; k < many; k++)
        /* a use after it was disposed of is the caller's */
        if (above == had[k] && gone[k]) return false;
    const char *name = names[pick(2)];
    bool taken = objc_lookUpClass(name);
    size_t extra = any_bool() ? SIZE_MAX - sizeof(struct objc_class) : 8;
    Class class_ = objc_allocateClassPair(above, name, extra);
    __CPROVER_assert(!class_ || !taken, "a name that is taken isn't given again");
    if (!class_) return true;
    had[many++] = class_;
    bool is_pair = class_isMetaClass(class_->isa) && !class_isMetaClass(class_);
    __CPROVER_assert(is_pair, "a class and its metaclass");
    __CPROVER_assert(class_getSuperclass(class_) == above, "its superclass");
    return true;
}

static bool register_one(void)
{
    int k = many ? pick(many) : 0;
    if (!many || gone[k]) return false;
    Class before = objc_lookUpClass(had[k]->name);
    objc_registerClassPair(had[k]);
    if (had[k]->record->number) registered[k] = true;
    Class found = objc_lookUpClass(had[k]->name);
    __CPROVER_assert(found == (before ? before : had[k]), "it is found by its name, or who had it");
    return true;
}

static bool dispose(void)
{
    int k = many ? pick(many) : 0;
    if (!many || gone[k]) return false;
    if (!registered[k]) gone[k] = true;
    objc_disposeClassPair(had[k]);
    return true;
}

static bool list(void)
{
    Class into[4] = {0};
    int most = pick(3) - 1, count = objc_getClassList(into, most);
    int room = most < 0 ? 0 : most, standing = (int)shim_class_count;
    __CPROVER_assert(count == (room < standing ? room : standing), "as many as there is room for");
    for (int i = 0; i < 4; i++)
        __CPROVER_assert(!into[i] == (i >= count), "they are written, and no more");
    return true;
}

static int one_run(void)
{
    for (int i = 0; i < STEPS; i++) {
        int which = pick(4);
        bool goes_on = which == 0 ? allocate() : which == 1 ? register_one()
                     : which == 2 ? dispose() : list();
        if (!goes_on) return 0;
    }
    bool has_room = shim_class_count + in_construction <= shim_class_room;
    __CPROVER_assert(has_room, "numbers are kept for those in construction");
    int standing = 0;
    for (int k = 0; k < many; k++) standing += !gone[k] && !registered[k];
    __CPROVER_assert((int)in_construction == standing, "as many as are in construction");
    __CPROVER_assert(!locks, "the lock is given");
    return 0;
}

static void afresh(void)
{
    memset(shim_classes, 0, sizeof shim_classes);
    memset((void *)guesses, 0, sizeof guesses);
    memset(gone, 0, sizeof gone);
    memset(registered, 0, sizeof registered);
    memset(had, 0, sizeof had);
    shim_class_count = in_construction = made = 0;
    shim_class_room = 3;
    many = locks = listed_count = 0;
    free_blocks();
}

int main(int argc, char **argv) { return every_choice(argc, argv, afresh, one_run); }
