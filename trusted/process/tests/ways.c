/* Random lists of changes beside a plain model: each is made, taken back by what it wrote, and made
 * again; each time every lookup and every superclass has to be the model's. With -DREFUSES, which
 * is for the library, so have the methods and the classes that it shows, and every request for
 * memory is refused while a list is taken back. */
#include "msg_runtime.h"
#include <stdio.h>
#include <string.h>

#ifndef LISTS
#define LISTS 100000
#endif
enum { CLASSES = 8, REFS = 2 * CLASSES, SELS = 4, ROWS = 12, PARTS = 6, BACK = 512, NOBODY = -1 };

/* ---- memory that can be refused ---- */

static bool refuses;
#ifdef REFUSES
extern void *__libc_malloc(size_t), *__libc_calloc(size_t, size_t);
extern void *__libc_realloc(void *, size_t), *__libc_memalign(size_t, size_t);
static unsigned refused;
static bool is_refused(void) { return refuses && ++refused; }
void *malloc(size_t n) { return is_refused() ? NULL : __libc_malloc(n); }
void *calloc(size_t n, size_t m) { return is_refused() ? NULL : __libc_calloc(n, m); }
void *realloc(void *at, size_t n) { return is_refused() ? NULL : __libc_realloc(at, n); }
void *memalign(size_t to, size_t n) { return is_refused() ? NULL : __libc_memalign(to, n); }
void *aligned_alloc(size_t to, size_t n) { return memalign(to, n); }
int posix_memalign(void **at, size_t to, size_t n)
{
    *at = memalign(to, n);
    return *at ? 0 : 12;
}
#endif

/* ---- the model ---- */

/* The methods of a class or a metaclass, the newest last. */
struct list { uint32_t count, sel[ROWS], imp[ROWS]; };

/* The classes that are made, what stands above each, and their methods by 2 * number + meta. */
struct model { bool made[CLASSES]; int above[CLASSES]; struct list of[REFS]; };

static int own(const struct model *model, int ref, uint32_t sel)
{
    const struct list *list = &model->of[ref];
    int row = (int)list->count - 1;
    while (row >= 0 && list->sel[row] != sel) row--;
    return row;
}

static int above(const struct model *model, int ref)
{
    if (!model->made[ref / 2]) return NOBODY;
    if (model->above[ref / 2] != NOBODY) return 2 * model->above[ref / 2] + ref % 2;
    return ref % 2 ? ref - 1 : NOBODY;
}

/* Where a lookup finds the method, or nobody. */
static int holder(const struct model *model, int ref, uint32_t sel)
{
    if (!model->made[ref / 2]) return NOBODY;
    while (ref != NOBODY && own(model, ref, sel) < 0) ref = above(model, ref);
    return ref;
}

/* The implementation that a lookup finds. */
static uint32_t *found(struct model *model, int ref, uint32_t sel)
{
    int at = holder(model, ref, sel);
    return at == NOBODY ? NULL : &model->of[at].imp[own(model, at, sel)];
}

static void put(struct list *list, uint32_t sel, uint32_t imp)
{
    list->sel[list->count] = sel;
    list->imp[list->count++] = imp;
}

static void leave(struct list *list, int row)
{
    for (list->count--; row < (int)list->count; row++) {
        list->sel[row] = list->sel[row + 1];
        list->imp[row] = list->imp[row + 1];
    }
}

static bool has_below(const struct model *model, int number)
{
    for (int it = 0; it < CLASSES; it++)
        if (model->made[it] && model->above[it] == number) return true;
    return false;
}

static uint32_t change_class(struct model *model, const msg_change *it)
{
    int number = (int)it->number;
    bool below = it->kind == MSG_MAKES_CLASS;
    if (it->kind == MSG_DISPOSES_CLASS) {
        if (!model->made[number]) return MSG_NO_SUCH_CLASS;
        if (has_below(model, number)) return MSG_CLASS_IN_USE;
        model->made[number] = false;
        model->of[2 * number].count = model->of[2 * number + 1].count = 0;
        return MSG_DONE;
    }
    if (below && !model->made[it->other]) return MSG_NO_SUCH_CLASS;
    if (model->made[number]) return MSG_DUPLICATE_CLASS;
    model->made[number] = true;
    model->above[number] = below ? (int)it->other : NOBODY;
    return MSG_DONE;
}

static uint32_t exchange(struct model *model, const msg_change *it)
{
    if (!model->made[it->number] || !model->made[it->other]) return MSG_NO_SUCH_CLASS;
    uint32_t *one = found(model, (int)(2 * it->number + it->meta), it->sel);
    uint32_t *other = found(model, (int)(2 * it->other + it->other_meta), it->other_sel);
    if (!one || !other) return MSG_NO_METHOD;
    uint32_t imp = *one;
    *one = *other;
    *other = imp;
    return MSG_DONE;
}

static uint32_t change_method(struct model *model, const msg_change *it)
{
    int ref = (int)(2 * it->number + it->meta), row = own(model, ref, it->sel);
    struct list *list = &model->of[ref];
    uint32_t *at = it->kind == MSG_SETS_IMP ? found(model, ref, it->sel) : NULL;
    if (!model->made[it->number]) return MSG_NO_SUCH_CLASS;
    if (it->kind == MSG_ADDS && row >= 0) return MSG_METHOD_PRESENT;
    if (it->kind == MSG_SETS_IMP && !at) return MSG_NO_METHOD;
    if (it->kind == MSG_REMOVES && row < 0) return MSG_NO_METHOD;
    if (it->kind == MSG_REMOVES) leave(list, row);
    else if (it->kind == MSG_SETS_IMP) *at = it->imp;
    else if (it->kind == MSG_REPLACES && row >= 0) list->imp[row] = it->imp;
    else put(list, it->sel, it->imp);
    return MSG_DONE;
}

static uint32_t change(struct model *model, const msg_change *it)
{
    switch (it->kind) {
    case MSG_EXCHANGES: return exchange(model, it);
    case MSG_MAKES_CLASS: case MSG_MAKES_ROOT_CLASS: case MSG_DISPOSES_CLASS:
        return change_class(model, it);
    default: return change_method(model, it);
    }
}

/* ---- random lists ---- */

static uint64_t state = 1;

static uint32_t below(uint32_t most)
{
    state ^= state << 13;
    state ^= state >> 7;
    state ^= state << 17;
    return (uint32_t)(state >> 33) % most;
}

/* How often a kind comes: what takes away as often as what brings. */
static const uint8_t KINDS[] = {
    MSG_ADDS, MSG_ADDS, MSG_REPLACES, MSG_SETS_IMP, MSG_EXCHANGES, MSG_COVERS,
    MSG_REMOVES, MSG_REMOVES, MSG_REMOVES, MSG_MAKES_CLASS, MSG_MAKES_CLASS,
    MSG_MAKES_ROOT_CLASS, MSG_DISPOSES_CLASS, MSG_DISPOSES_CLASS,
};

static msg_change random_part(const struct model *model)
{
    msg_change it = {.kind = KINDS[below(sizeof KINDS)], .number = below(CLASSES)};
    if (it.kind == MSG_DISPOSES_CLASS || it.kind == MSG_MAKES_ROOT_CLASS) return it;
    if (it.kind == MSG_MAKES_CLASS) {
        it.other = below(CLASSES);
        return it;
    }
    it.meta = below(2);
    it.sel = 1 + below(SELS);
    if (it.kind == MSG_EXCHANGES) {
        it.other = below(CLASSES);
        it.other_meta = below(2);
        it.other_sel = 1 + below(SELS);
        return it;
    }
    /* the model has no more rows */
    if (it.kind == MSG_COVERS && model->of[2 * it.number + it.meta].count > ROWS - SELS - PARTS)
        it.kind = MSG_REMOVES;
    if (it.kind != MSG_REMOVES) it.imp = 1 + below(250);
    return it;
}

/* A list, and what the model makes of it. Of a part that would be refused another is tried, most
 * often, so that long lists are made too. */
static size_t random_list(struct model *model, msg_change *list, uint32_t *fault, size_t *place)
{
    size_t count = 1 + below(PARTS);
    *fault = MSG_DONE;
    for (size_t i = 0; i < count; i++) {
        struct model then = *model;
        uint32_t said = MSG_DONE;
        for (int tries = 0; tries < 8; tries++) {
            then = *model;
            list[i] = random_part(model);
            said = change(&then, &list[i]);
            if (!said || !below(8)) break;
        }
        if (*fault) continue;
        *model = then;
        *fault = said;
        *place = i;
    }
    return count;
}

/* ---- the comparison ---- */

static msg_runtime runtime = MSG_RUNTIME_INIT;
static msg_sender sender = MSG_SENDER_INIT;
static unsigned wrong;

static void want(const char *what, uint64_t is, uint64_t wanted)
{
    if (is == wanted) return;
    if (!wrong++) printf("%s: %u, not %u\n", what, (unsigned)is, (unsigned)wanted);
}

static uint32_t sent(uint32_t number, bool meta, uint32_t sel)
{
    uint32_t imp = 0;
    if (msg_probe(&sender, number, meta, sel, &imp) == MSG_DONE) return imp;
    want("fill", msg_fill(&runtime, &sender, number, meta, sel, &imp), MSG_DONE);
    return imp;
}

#ifdef REFUSES
/* Of each selector the newest comes first. */
static void compare_methods(const struct model *model, int ref)
{
    msg_method shown[ROWS];
    size_t count = 99;
    uint32_t number = (uint32_t)ref / 2;
    want("methods", msg_methods(&runtime, number, ref % 2, shown, ROWS, &count), MSG_DONE);
    want("as many", count, model->of[ref].count);
    for (uint32_t sel = 1; sel <= SELS && !wrong; sel++) {
        size_t at = 0;
        for (int row = (int)count - 1; row >= 0; row--) {
            if (model->of[ref].sel[row] != sel) continue;
            while (at < count && shown[at].sel != sel) at++;
            want("a method", at < count ? shown[at++].imp : 0, model->of[ref].imp[row]);
        }
    }
}

/* Whether a class stands below another. */
static bool is_below(const struct model *model, int number, int other)
{
    do number = model->made[number] ? model->above[number] : NOBODY;
    while (number != NOBODY && number != other);
    return number == other;
}

/* Those that are shown are those of the model, each once. */
static void compare_classes(const struct model *model, int other)
{
    uint32_t shown[CLASSES];
    size_t count = 99, wanted = 0;
    bool all = other == NOBODY;
    uint32_t said = all ? msg_classes(&runtime, shown, CLASSES, &count)
                        : msg_classes_below(&runtime, (uint32_t)other, shown, CLASSES, &count);
    want("classes", said, MSG_DONE);
    for (int it = 0; it < CLASSES; it++) {
        size_t times = 0;
        for (size_t at = 0; at < count; at++) times += shown[at] == (uint32_t)it;
        bool there = all ? model->made[it] : is_below(model, it, other);
        want("a class", times, there);
        wanted += there;
    }
    want("as many classes", count, wanted);
}
#endif

#ifdef REFUSES
/* Where the library says so itself: its handle lies as the header's does. */
static void want_written(uint32_t number, bool meta, uint32_t sel)
{
    uint64_t key = msg_key(2 * number + meta, sel);
    want("written", sender.written[(uint16_t)key / 8 / 128], true);
}
#else
#define want_written(number, meta, sel) (void)0
#endif

static void compare(struct model *model)
{
#ifdef REFUSES
    for (int other = NOBODY; other < CLASSES; other++) compare_classes(model, other);
    for (int ref = 0; ref < REFS; ref++) compare_methods(model, ref);
#endif
    for (int ref = 0; ref < REFS; ref++) {
        uint32_t number = (uint32_t)ref / 2;
        bool meta = ref % 2;
        int over = above(model, ref);
        msg_class at = {0, false};
        uint32_t said = msg_superclass(&runtime, number, meta, &at);
        want("superclass", said, over == NOBODY ? MSG_NONE : MSG_DONE);
        if (!said) want("above", 2 * at.number + at.meta, (uint64_t)over);
        for (uint32_t sel = 1; sel <= SELS; sel++) {
            const uint32_t *imp = found(model, ref, sel);
            uint32_t looked = 0;
            want("lookup", msg_lookup(&runtime, number, meta, sel, &looked), MSG_DONE);
            want("looked up", looked, imp ? *imp : 0);
            want("sent", sent(number, meta, sel), imp ? *imp : 0);
            want_written(number, meta, sel);
        }
    }
}

/* Makes a list, takes it back, and makes it again. */
static bool made(struct model *now)
{
    struct model before = *now, after = *now;
    msg_change list[PARTS], back[BACK];
    uint32_t fault = MSG_DONE;
    size_t place = 0, at = 99, written = 99;
    size_t count = random_list(&after, list, &fault, &place);
    uint32_t said = msg_change_all_with_undo(&runtime, list, count, back, BACK, &written, &at);
    want("a list", said, fault);
    if (fault) {
        want("its place", at, place);
        compare(&before);
        return false;
    }
    compare(&after);
    refuses = true;
    said = msg_change_all(&runtime, back, written, &at);
    refuses = false;
    want("a way back", said, MSG_DONE);
    compare(&before);
    want("again", msg_change_all(&runtime, list, count, &at), MSG_DONE);
    compare(&after);
    *now = after;
    return true;
}

int main(void)
{
    const msg_config config = {.classes = CLASSES, .senders = 4};
    struct model model = {.made = {false}};
    unsigned ways = 0;
    want("open", msg_open(&runtime, &config), MSG_DONE);
    want("open", msg_sender_open(&runtime, &sender), MSG_DONE);
    for (int i = 0; i < LISTS && !wrong; i++) ways += made(&model);
    if (ways < LISTS / 4) want("ways back", ways, LISTS / 4);
#ifdef REFUSES
    printf("ways: %u wrong, and %u requests for memory refused\n", wrong, refused);
#else
    printf("ways: %u wrong\n", wrong);
#endif
    return wrong != 0;
}
