/* Numbers, of selectors by their names and of functions; and memory. Trusted: that equal names have
 * one number and others another, as functions have, that a table that has grown has all that it
 * had, and that the numbers of the selectors that the shim sends are right. */
#include "seat.h"
#include <stdio.h>
#include <sys/auxv.h>
#include <sys/mman.h>

enum { FEWEST = 64, CHUNK = 4096, KEPT = 512, MOST_OF_A_PAGE = 1 << 16, STEP = MOST_OF_A_PAGE };

/* The selectors of one name that differ in their types. */
struct typed {
    struct objc_selector sel;
    struct typed *next;
};
struct name {
    const char *text;
    struct typed *typed;
};

#define NAME(number, text) [number] = text,
static const char *const own_names[FIRST_FREE] = {OWN_SELECTORS(NAME)};
#define KEY(number, text) [number] = {.name.key = MSG_KEY_OF_SLOT + MSG_KEY_OF_SEL * (number)},
const struct objc_selector shim_own[FIRST_FREE] = {OWN_SELECTORS(KEY)};

static struct name *names[MOST_SELECTORS / CHUNK + 1]; /* by their numbers, where they stay */
static uint32_t name_count;
static struct index by_text, by_function;

_Alignas(MOST_OF_A_PAGE) _Atomic(IMP) shim_functions[MOST_IMPS + 1];

void shim_stop(const char *why, const char *what)
{
    fprintf(stderr, "objc: %s: %s\n", why, what);
    abort();
}

void *shim_or_stop(void *memory, const char *what)
{
    if (!memory) shim_stop("no memory", what);
    return memory;
}

void *shim_memory(size_t size) { return shim_or_stop(calloc(1, size ? size : 1), "runtime"); }
char *shim_copy(const char *text) { return shim_or_stop(strdup(text), "name"); }

void *shim_more(void *rows, uint32_t count, uint32_t *room, size_t size)
{
    if (count < *room) return rows;
    *room = *room * 2 + 32;
    return shim_or_stop(realloc(rows, *room * size), "runtime");
}

void *shim_list(size_t many, size_t size, unsigned int *count)
{
    if (count) *count = (unsigned int)many;
    return many ? shim_memory((many + 1) * size) : NULL;
}

/* ---- numbers by what they are of ---- */

/* Of this process alone, so nobody can choose names that are mixed alike. */
static uint64_t secret[2];
void shim_take_secret(void) { memcpy(secret, (const void *)getauxval(AT_RANDOM), sizeof secret); }

static uint64_t mix(uint64_t mixed, uint64_t word)
{
    unsigned __int128 product = (unsigned __int128)(mixed ^ word) * (secret[1] | 1);
    return (uint64_t)product ^ (uint64_t)(product >> 64);
}

uint32_t shim_mixed(const char *name)
{
    uint64_t mixed = secret[0], word;
    size_t left = strlen(name);
    for (; left >= sizeof word; left -= sizeof word, name += sizeof word) {
        memcpy(&word, name, sizeof word);
        mixed = mix(mixed, word);
    }
    for (word = 0; left; left--) word = word << 8 | (unsigned char)name[left - 1];
    return (uint32_t)mix(mixed, word);
}

uint32_t shim_mixed_word(uintptr_t word) { return (uint32_t)mix(secret[0], word); }

uint32_t shim_number_in(const struct index *index, uint32_t mixed,
                        bool (*is)(uint32_t number, const void *it), const void *it)
{
    const struct places *places = atomic_load_explicit(&index->places, memory_order_acquire);
    uint64_t place = 0;
    for (uint32_t at = mixed; places; at++) {
        place = atomic_load_explicit(&places->at[at & places->last], memory_order_acquire);
        if (!place || (place >> 32 == mixed && is((uint32_t)place, it))) break;
    }
    return (uint32_t)place;
}

static void put(struct places *places, uint64_t place)
{
    uint32_t at = (uint32_t)(place >> 32);
    while (atomic_load_explicit(&places->at[at & places->last], memory_order_relaxed)) at++;
    atomic_store_explicit(&places->at[at & places->last], place, memory_order_release);
}

void *shim_index(struct index *index, uint32_t mixed, uint32_t number)
{
    struct places *before = index->places, *places = before;
    uint32_t room = before ? before->last + 1 : 0, more = room ? 2 * room : FEWEST;
    if (++index->count > room / 4 * 3) {
        places = shim_memory(sizeof *places + more * sizeof *places->at);
        places->before = before;
        places->last = more - 1;
        for (uint32_t i = 0; i < room; i++)
            if (before->at[i]) put(places, before->at[i]);
    }
    put(places, (uint64_t)mixed << 32 | number);
    atomic_store_explicit(&index->places, places, memory_order_release);
    return places == before ? NULL : before;
}

static bool is_function(uint32_t number, const void *imp)
{
    return atomic_load_explicit(&shim_functions[number], memory_order_relaxed) == *(const IMP *)imp;
}

/* Numbers are used a step at a time: what lies behind is an address alone, also where a program has
 * all of its memory locked, or may promise little. */
static void make_room(uint32_t number)
{
    int how = MAP_PRIVATE | MAP_ANONYMOUS | MAP_NORESERVE | MAP_FIXED;
    if (number == 1) mmap(shim_functions, sizeof shim_functions, PROT_READ, how, -1, 0);
    if (number != 1 && number % STEP) return;
    void *from = (void *)&shim_functions[number / STEP * STEP];
    if (mprotect(from, STEP * sizeof(IMP), PROT_READ | PROT_WRITE)) shim_or_stop(NULL, "runtime");
}

uint32_t shim_number(IMP imp)
{
    static uint32_t count;
    uint32_t mixed = shim_mixed_word((uintptr_t)imp);
    uint32_t number = shim_number_in(&by_function, mixed, is_function, &imp);
    if (number) return number;
    if (count == MOST_IMPS) shim_stop("no number is left for an implementation", "all are taken");
    make_room(++count);
    atomic_store(&shim_functions[count], imp);
    free(shim_index(&by_function, mixed, count));
    return count;
}

/* ---- selectors ---- */

static struct name *name_at(uint32_t number) { return &names[number / CHUNK][number % CHUNK]; }
static bool is_named(uint32_t at, const void *text) { return !strcmp(name_at(at)->text, text); }

static uint32_t list(const char *text, uint32_t mixed)
{
    if (name_count == MOST_SELECTORS) shim_stop("no number is left for a selector", text);
    struct name **chunk = &names[++name_count / CHUNK];
    if (!*chunk) *chunk = shim_memory(CHUNK * sizeof **chunk);
    name_at(name_count)->text = text;
    free(shim_index(&by_text, mixed, name_count));
    return name_count;
}

/* A text that lasts isn't copied: a module's, which is never unloaded. */
static uint32_t numbered(const char *text, bool lasts)
{
    while (name_count < FIRST_FREE - 1)
        list(own_names[name_count + 1], shim_mixed(own_names[name_count + 1]));
    uint32_t mixed = shim_mixed(text), number = shim_number_in(&by_text, mixed, is_named, text);
    return number ? number : list(lasts ? text : shim_copy(text), mixed);
}

static struct typed *typed_of(const char *text)
{
    uint32_t number = text ? shim_number_in(&by_text, shim_mixed(text), is_named, text) : 0;
    return number ? name_at(number)->typed : NULL;
}

/* Whether two types are one. The places of the arguments don't count, since programs write them
 * without knowing them. Qualifiers don't count either: a protocol may have some that a class that
 * adopts it leaves out. */
static bool same_types(const char *one, const char *other)
{
    if (!one || !other) return one == other;
    if (!strcmp(one, other)) return true;
    for (;;) {
        one = objc_skip_type_qualifiers(one);
        other = objc_skip_type_qualifiers(other);
        if (!*one || *one != *other) return *one == *other;
        if (*one == '^') {
            one++, other++;
            continue;
        }
        size_t length = (size_t)(objc_skip_typespec(one) - one);
        if (strncmp(one, other, length) || objc_skip_typespec(other) != other + length)
            return false;
        one = objc_skip_argspec(one);
        other = objc_skip_argspec(other);
    }
}

/* For as long as the program lasts. */
SEL shim_typed_selector(uint32_t number, const char *types, bool lasts)
{
    static struct typed *fresh, *end;
    struct typed **first = &name_at(number)->typed, *at = *first;
    while (at && !same_types(at->sel.types, types)) at = at->next;
    if (at) return &at->sel;
    if (fresh == end) end = (fresh = shim_memory(KEPT * sizeof *fresh)) + KEPT;
    if (types && !lasts) types = shim_copy(types);
    *fresh = (struct typed){{{.key = msg_key(0, number)}, types}, *first};
    *first = fresh;
    return &fresh++->sel;
}

SEL shim_lasting_selector(const char *name, const char *types)
{
    return shim_typed_selector(numbered(name, true), types, true);
}

/* A selector of a module is its own: code compares it by its number. */
void shim_take_selector(struct objc_selector *sel)
{
    sel->name.key = shim_lasting_selector(sel->name.text, sel->types)->name.key;
}

SEL sel_registerTypedName(const char *name, const char *types)
{
    LOCKED;
    return name ? shim_typed_selector(numbered(name, false), types, false) : NULL;
}

SEL sel_registerName(const char *name) { return sel_registerTypedName(name, NULL); }
SEL sel_getUid(const char *name) { return sel_registerName(name); }

SEL sel_getTypedSelector(const char *name)
{
    LOCKED;
    SEL found = NULL;
    for (struct typed *at = typed_of(name); at; at = at->next) {
        if (!at->sel.types) continue;
        if (found && !same_types(found->types, at->sel.types)) return NULL;
        found = &at->sel;
    }
    return found;
}

SEL *sel_copyTypedSelectorList(const char *name, unsigned int *count)
{
    LOCKED;
    struct typed *newest = typed_of(name);
    unsigned int many = 0;
    for (struct typed *at = newest; at; at = at->next) many++;
    SEL *list = shim_list(many, sizeof *list, count), *next = list;
    for (struct typed *at = newest; at; at = at->next) *next++ = &at->sel;
    return list;
}

/* Older calls: the newest selector of a name that is known; whether it is a selector at all. */
SEL sel_get_any_uid(const char *name)
{
    LOCKED;
    struct typed *newest = typed_of(name);
    return newest ? &newest->sel : NULL;
}

/* The name of a selector. It is NULL if the words aren't those of a registered one, such as what a
 * compiler wrote of a selector before its module was loaded. */
static const char *name_of(SEL sel)
{
    uint32_t number = shim_sel(sel);
    bool is_one = number <= MOST_SELECTORS && sel->name.key == msg_key(0, number);
    return is_one && names[number / CHUNK] ? name_at(number)->text : NULL;
}

BOOL sel_is_mapped(SEL sel)
{
    LOCKED;
    return sel && name_of(sel);
}

const char *sel_getName(SEL sel) { return sel ? name_of(sel) : "<null selector>"; }
const char *sel_getTypeEncoding(SEL sel) { return sel ? sel->types : NULL; }
BOOL sel_isEqual(SEL a, SEL b) { return a && b ? a->name.key == b->name.key : a == b; }
