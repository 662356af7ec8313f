/* Functions of methods are set and exchanged, by the methods themselves: in many classes and their
 * metaclasses, in a class that has a newer method of the name, and in one in construction. */
#include "modules.h"
#include <stdlib.h>

enum { CLASSES = 2000, OWN = 4, CHANGES = 20000 };

static Class classes[CLASSES];
static SEL sels[OWN];
static int expected[CLASSES][2][OWN]; /* of the class and of its metaclass */
static long wrong;

static const IMP functions[2] = {one, two};

static Class side(int class_, int meta) { return meta ? classes[class_]->isa : classes[class_]; }
static Method method_at(int class_, int meta, int own)
{
    return meta ? class_getClassMethod(classes[class_], sels[own])
                : class_getInstanceMethod(classes[class_], sels[own]);
}

static void look(int class_, int meta, int own)
{
    IMP is = functions[expected[class_][meta][own]];
    wrong += class_getMethodImplementation(side(class_, meta), sels[own]) != is;
    wrong += method_getImplementation(method_at(class_, meta, own)) != is;
}

static void make(int class_)
{
    char name[32];
    snprintf(name, sizeof name, "Home%d", class_);
    classes[class_] = objc_allocateClassPair(&root, name, 0);
    for (int i = 0; i < 2 * OWN; i += class_ % 2 + 1) {
        expected[class_][i % 2][i / 2] = i / 2 % 2;
        class_addMethod(side(class_, i % 2), sels[i / 2], functions[i / 2 % 2], "@16@0:8");
    }
    objc_registerClassPair(classes[class_]);
    for (int i = 1; class_ % 2 && i < 2 * OWN; i += 2) { /* the others come later */
        expected[class_][1][i / 2] = 1;
        class_addMethod(side(class_, 1), sels[i / 2], two, "@16@0:8");
    }
}

static void change(int step)
{
    int class_ = rand() % CLASSES, meta = rand() % 2, own = rand() % OWN;
    int other = rand() % CLASSES, other_meta = rand() % 2, other_own = rand() % OWN;
    int *here = &expected[class_][meta][own], *there = &expected[other][other_meta][other_own],
        before = *here;
    if (step % 2) {
        *here = !before;
        wrong += method_setImplementation(method_at(class_, meta, own), functions[!before]) !=
                 functions[before];
    } else {
        *here = *there;
        *there = before;
        method_exchangeImplementations(method_at(class_, meta, own),
                                       method_at(other, other_meta, other_own));
    }
    look(class_, meta, own);
    look(other, other_meta, other_own);
}

static struct { struct method_list *next; int32_t count; struct objc_method rows[2]; } newer = {
    NULL, 2, {{.name.text = "one", "@16@0:8", two}, {.name.text = "three", "@16@0:8", one}}};
static struct objc_category category = {"Newer", "Root", (struct method_list *)&newer, NULL, NULL};
static struct {
    unsigned long ref_count;
    struct objc_selector *refs;
    uint16_t class_count, category_count;
    void *defs[2];
} newer_symbols = {0, NULL, 0, 1, {&category, NULL}};
static struct module newer_module = {8, sizeof newer_module, "a newer one",
                                     (struct symbols *)&newer_symbols};

int main(void)
{
    take();
    SEL first = sel_registerName("one");
    for (int i = 0; i < OWN; i++)
        sels[i] = sel_registerName((const char *[]){"first", "second", "third", "fourth"}[i]);
    for (int i = 0; i < CLASSES; i++) make(i);
    for (int i = 0; i < CHANGES; i++) change(i);
    for (int i = 0; i < CLASSES * 2 * OWN; i++) look(i / 2 / OWN, i / OWN % 2, i % OWN);
    printf("of %d classes wrong %ld\n", CLASSES, wrong);

    id object = class_createInstance(&root, 0);
    Method older = class_getInstanceMethod(&root, first);
    __objc_exec_class(&newer_module);
    IMP was = method_setImplementation(older, two); /* it is called no more, so nothing is */
    printf("the older of a name: %d, sent %ld\n", was == one, send(object, first));
    was = method_setImplementation(class_getInstanceMethod(&root, first), one);
    printf("the newer: %d, sent %ld\n", was == two, send(object, first));

    Class late = objc_allocateClassPair(&root, "Late", 0);
    class_addMethod(late, sels[0], one, "@16@0:8");
    Method method = class_getInstanceMethod(late, sels[0]);
    method_setImplementation(method, two);
    objc_registerClassPair(late);
    id other = class_createInstance(late, 0);
    printf("in construction: sent %ld", send(other, sels[0]));
    method_setImplementation(method, one);
    printf(", then %ld\n", send(other, sels[0]));

    Class later = objc_allocateClassPair(&root, "Later", 0);
    class_addMethod(later, sels[0], two, "@16@0:8");
    method_exchangeImplementations(method, class_getInstanceMethod(later, sels[0]));
    printf("exchanged with one in construction: %ld", send(other, sels[0]));
    objc_registerClassPair(later);
    object_setClass(other, later);
    printf(" %ld\n", send(other, sels[0]));
    object_dispose(object);
    object_dispose(other);
    return 0;
}
