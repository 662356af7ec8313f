/* Runs trusted/objc/names.c with small tables, in which all names collide: 12 selectors, of which
 * 10 are the shim's own, and 3 functions. It runs every sequence of STEPS names, as programs and
 * modules ask for them, with memory refused at each place, under sanitizers. */
#include "blocks.h"
#define abort() longjmp(search->out_of_run, 1)
#define fprintf(...) ((void)0)
#include "encoding.c"
#include "standin_types.h"
#include "names.c"
#undef fprintf
#undef abort
#ifndef STEPS
#define STEPS 2
#endif

static const char *const texts[] = {"x", "retain", "yy", "x:y:zzzz9"};
static const char *const types[] = {NULL, "v16@0:8", "v24@0:8", "i"};
static const uintptr_t functions[] = {1, 2, 0x8000000000000001, 77};

/* Of these types: but for the places. */
static bool same(const char *one, const char *other)
{
    return one == other || (one && other && *one == *other);
}

static SEL ask(int name, int type)
{
    if (any_bool()) return sel_registerTypedName(texts[name], types[type]);
    struct objc_selector own = {{.text = texts[name]}, types[type]}; /* a module's */
    shim_take_selector(&own);
    return shim_typed_selector(shim_sel(&own), types[type], true);
}

static void ask_lists(int name)
{
    unsigned count = 9;
    SEL *list = sel_copyTypedSelectorList(texts[name], &count);
    __CPROVER_assert(list ? count && !list[count] : !count, "a list ends by NULL");
    for (unsigned i = 0; i < count; i++)
        __CPROVER_assert(!strcmp(sel_getName(list[i]), texts[name]), "a list is of the name");
    SEL newest = list ? list[0] : NULL;
    __CPROVER_assert(sel_get_any_uid(texts[name]) == newest, "the newest of a name");
    free(list);
    SEL typed = sel_getTypedSelector(texts[name]);
    bool is_typed = !typed || (typed->types && !strcmp(sel_getName(typed), texts[name]));
    __CPROVER_assert(is_typed, "one with types");
}

static void ask_functions(void)
{
    uint32_t numbers[4];
    int of[4];
    for (int i = 0; i < 4; i++) {
        of[i] = pick(4);
        /* or the program ends: there is room for three */
        numbers[i] = shim_number((IMP)functions[of[i]]);
        __CPROVER_assert(numbers[i] && numbers[i] <= MOST_IMPS, "a number of the table");
        __CPROVER_assert(shim_functions[numbers[i]] == (IMP)functions[of[i]],
                         "it is the function's");
        for (int j = 0; j < i; j++)
            __CPROVER_assert((numbers[i] == numbers[j]) == (of[i] == of[j]),
                             "a function has one number");
    }
}

static int one_run(void)
{
    SEL had[STEPS];
    int of[STEPS], with[STEPS];
    for (int i = 0; i < STEPS; i++) {
        int name = of[i] = pick(4), type = with[i] = pick(4);
        SEL sel = had[i] = ask(name, type);
        __CPROVER_assert(name_count <= MOST_SELECTORS && sel, "within the table");
        __CPROVER_assert(!strcmp(sel_getName(sel), texts[name]), "its name");
        __CPROVER_assert(same(sel_getTypeEncoding(sel), types[type]), "its types");
        __CPROVER_assert(sel_is_mapped(sel), "it is a selector");
        for (int j = 0; j < i; j++) {
            bool alike = of[j] == name;
            __CPROVER_assert(sel_isEqual(sel, had[j]) == alike,
                             "equal names have one number, others another");
            alike = alike && same(types[with[j]], types[type]);
            __CPROVER_assert((sel == had[j]) == alike, "one for a name and types");
        }
    }
    ask_lists(pick(4));
    ask_functions();
    __CPROVER_assert(!locks, "the lock is given");
    return 0;
}

static void afresh(void)
{
    memset(names, 0, sizeof names);
    memset((void *)shim_functions, 0, sizeof shim_functions);
    by_text = by_function = (struct index){0};
    name_count = cv_count = 0;
    fresh = end = NULL;
    locks = 0;
    free_blocks();
}

int main(int argc, char **argv) { return every_choice(argc, argv, afresh, one_run); }
