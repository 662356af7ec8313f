/* Selectors of a class that have one place for their notes, and classes that have one for a
 * selector, in turns: each is answered by its own method. A place has two notes: so two in turns
 * are found by what is noted, and three aren't. The methods aren't called: their functions are
 * numbers, behind the begin of memory. The last have longer numbers than a seal has room for. */
#include "modules.h"
#include "msg_process.h"
#include <pthread.h>

enum { PLACES = 8192, OF_A_PLACE = 3, FEW = 100, NAMES = 2 * PLACES + FEW, OF_CLASSES = 15 };
enum { NUMBERS = 4096, MADE = 38, CLASSES = 2 * NUMBERS + MADE, BEGIN = 1 << 24 };

struct message { Class class_; int name; long number; };

static SEL sels[NAMES];
static Class classes[CLASSES]; /* so far apart as NUMBERS, a selector has one place */
static long wrong;

/* Of the layer for a process, as the shim has it; no program's where the shim is a library. */
extern __thread struct msg_process_thread shim_process_own __attribute__((weak));
extern void shim_process_unlock(void) __attribute__((weak));

/* How often this thread was on the slow way. */
static uint64_t turns(void) { return shim_process_unlock ? shim_process_own.turns : 0; }

static void add(Class class_, int name, long number)
{
    class_addMethod(class_, sels[name], (IMP)(BEGIN + number), "@16@0:8");
}

static void look(const struct message *it)
{
    struct objc_object object = {it->class_};
    if ((long)objc_msg_lookup(&object, sels[it->name]) != BEGIN + it->number ||
        !class_respondsToSelector(it->class_, sels[it->name]))
        wrong++;
}

static long number_of(int class_, int name) { return (class_ + 1) * NAMES + name; }

static void make(int class_)
{
    char text[16];
    snprintf(text, sizeof text, "Made%d", class_);
    classes[class_] = objc_allocateClassPair(&root, text, 0);
    for (int name = 0; name < OF_CLASSES; name++)
        add(classes[class_], name, number_of(class_, name));
    objc_registerClassPair(classes[class_]);
}

/* All of a place, and then each two, by their notes alone. In the second round each lies in the
 * other note. */
static void look_at(const struct message *all)
{
    for (int i = 0; i < 2 * OF_A_PLACE; i++) look(&all[i % OF_A_PLACE]);
    for (int i = 0; i < 2 * OF_A_PLACE; i++) {
        const struct message *two[] = {&all[i % OF_A_PLACE], &all[(i + 1) % OF_A_PLACE]};
        for (int k = 0; k < 2; k++) look(two[k]);
        uint64_t before = turns();
        for (int k = 0; k < 4; k++) look(two[k % 2]);
        wrong += turns() != before;
    }
}

static void look_in_turns(void)
{
    struct message all[OF_A_PLACE];
    for (int few = 0; few < FEW; few++) {
        for (int i = 0, name = few; i < OF_A_PLACE; i++, name += PLACES)
            all[i] = (struct message){&root, name, name};
        look_at(all);
    }
    for (int name = 0; name < OF_CLASSES; name++)
        for (int made = 0; made < MADE; made++) {
            for (int i = 0, class_ = made; i < OF_A_PLACE; i++, class_ += NUMBERS)
                all[i] = (struct message){classes[class_], name, number_of(class_, name)};
            look_at(all);
        }
}

static void *replace(void *message)
{
    const struct message *it = message;
    class_replaceMethod(it->class_, sels[it->name], (IMP)(BEGIN + it->number), "@16@0:8");
    return NULL;
}

/* What another thread replaced is found anew, also if the second note has the old one. */
static void replace_in_turns(void)
{
    struct message two[] = {{&root, 0, 0}, {&root, PLACES, PLACES}};
    for (int turn = 0; turn < 4; turn++) {
        pthread_t thread;
        for (int k = 0; k < 4; k++) look(&two[k % 2]);
        two[turn % 2].number++;
        pthread_create(&thread, NULL, replace, &two[turn % 2]);
        pthread_join(thread, NULL);
        for (int k = 0; k < 4; k++) look(&two[k % 2]);
    }
}

static long asked;
static id refuse(id self, SEL sel, ...) { (void)self; (void)sel; asked++; return NULL; }
static IMP forward(id to, SEL sel) { (void)to; (void)sel; return one; }

/* That classes have no resolver is noted at one place, too. One that a class gets later is asked.
 */
static void resolve_later(void)
{
    SEL missing = sel_registerName("missing"), asks = sel_registerName("resolveInstanceMethod:");
    for (int with = 0; with <= OF_A_PLACE; with++) {
        if (with) class_addMethod(classes[(with - 1) * NUMBERS]->isa, asks, refuse, "c@:@:");
        for (int i = 0; i < 4 * OF_A_PLACE; i++) {
            int which = i % OF_A_PLACE;
            struct objc_object object = {classes[which * NUMBERS]};
            asked = 0;
            if (objc_msg_lookup(&object, missing) != one || asked != (which < with)) wrong++;
        }
    }
}

int main(void)
{
    take();
    __objc_msg_forward2 = forward;
    (void)send; /* of the module, and not called here */
    for (int i = 0; i < NAMES; i++) {
        char text[16];
        snprintf(text, sizeof text, "name%d", i);
        sels[i] = sel_registerName(text);
        add(&root, i, i);
    }
    for (int i = 0; i < CLASSES; i++) make(i);
    for (int turn = 0; turn < 3; turn++) look_in_turns();
    resolve_later();
    replace_in_turns();
    printf("wrong %ld\n", wrong);
    return 0;
}
