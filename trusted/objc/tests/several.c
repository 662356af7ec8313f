/* objc_replace_methods and objc_exchange_methods: what they answer, what the rows say then, and
 * that a refusal leaves all as it was. */
#include "modules.h"
#include "msg_objc.h"

static id three(id self, SEL sel, ...)
{
    (void)self;
    (void)sel;
    return (id)13;
}
static id four(id self, SEL sel, ...)
{
    (void)self;
    (void)sel;
    return (id)14;
}

static SEL first, second, new_one;
static id object, of_child;

static long answer(id receiver, SEL sel)
{
    return class_respondsToSelector(receiver->isa, sel) ? send(receiver, sel) : 0;
}
static void show(const char *what)
{
    printf("%s: %ld %ld %ld, child %ld %ld %ld\n", what, answer(object, first),
           answer(object, second), answer(object, new_one), answer(of_child, first),
           answer(of_child, second), answer(of_child, new_one));
}

static void replace_and_take_back(void)
{
    struct objc_method_swap rows[] = {{&root, first, three, NULL},
                                      {&child, first, four, NULL},
                                      {&child, second, three, "@16@0:8"},
                                      {&root, second, four, NULL}};
    printf("%zu", objc_replace_methods(rows, 4));
    show(" replaced");
    printf("before %d %d %d %d\n", rows[0].imp == one, rows[1].imp == one, rows[2].imp == two,
           rows[3].imp == two);
    printf("types %s, own methods of the child %d\n",
           method_getTypeEncoding(class_getInstanceMethod(&child, first)),
           class_getInstanceMethod(&child, first) != class_getInstanceMethod(&root, first));
    printf("%zu", objc_replace_methods(rows, 4));
    show(" taken back");
}

static void add_one(void)
{
    struct objc_method_swap rows[] = {{&root, new_one, three, "@16@0:8"}};
    printf("%zu", objc_replace_methods(rows, 1));
    show(" added");
    printf("before %d; there is no way back: %zu\n", rows[0].imp == NULL,
           objc_replace_methods(rows, 1));
}

static void refuse(const char *why, Class class_, SEL sel, IMP imp, const char *types)
{
    struct objc_method_swap rows[] = {{&root, first, three, NULL},
                                      {&child, second, four, NULL},
                                      {class_, sel, imp, types},
                                      {NULL, NULL, NULL, NULL}};
    printf("%s: at %zu, ", why, objc_replace_methods(rows, 4));
    printf("rows as they were %d", rows[0].imp == three && rows[1].imp == four);
    show("");
}

static void refuse_each(void)
{
    Class constructed = objc_allocateClassPair(&root, "Constructed", 0);
    refuse("no class", NULL, first, one, "@16@0:8");
    refuse("in construction", constructed, first, one, "@16@0:8");
    refuse("no selector", &child, NULL, one, "@16@0:8");
    refuse("no implementation", &child, first, NULL, "@16@0:8");
    refuse("no types", &child, sel_registerName("nobodys"), one, NULL);
    refuse("empty types", &child, sel_registerName("nobodys"), one, "");
    refuse("named before", &child, second, one, "@16@0:8");
    objc_disposeClassPair(constructed);
    struct objc_method_swap heirs = {&child, new_one, one, ""};
    printf("empty types of one that is inherited: %zu of 1", objc_replace_methods(&heirs, 1));
    show("");
    objc_replace_methods(&heirs, 1);
}

static void exchange(void)
{
    Method here = class_getInstanceMethod(&root, first),
           there = class_getInstanceMethod(&root, second),
           last = class_getInstanceMethod(&root, new_one);
    struct objc_method_pair pairs[] = {{here, there}, {there, last}},
                            back[] = {{there, last}, {here, there}},
                            wrong[] = {{here, there}, {here, NULL}};
    printf("%zu", objc_exchange_methods(pairs, 2));
    show(" exchanged");
    printf("%zu", objc_exchange_methods(wrong, 2));
    show(" refused");
    printf("%zu", objc_exchange_methods(back, 2));
    show(" taken back");
    printf("none: %zu %zu\n", objc_replace_methods(NULL, 0), objc_exchange_methods(NULL, 0));
}

static void look_up(void)
{
    Class constructed = objc_allocateClassPair(&root, "Constructed", 0);
    struct objc_method_lookup rows[] = {
        {&root, first, NULL}, {&child, new_one, NULL}, {&root, sel_registerName("nobodys"), NULL}};
    struct objc_method_lookup wrong[] = {{&root, first, NULL}, {constructed, first, NULL}};
    printf("%zu", objc_lookup_methods(rows, 3));
    printf(" looked up: %d %d %d\n", rows[0].imp == one, rows[1].imp == three, rows[2].imp == NULL);
    printf("in construction: at %zu", objc_lookup_methods(wrong, 2));
    wrong[0].sel = NULL;
    printf(", no selector: at %zu, none: %zu\n", objc_lookup_methods(wrong, 2),
           objc_lookup_methods(NULL, 0));
    objc_disposeClassPair(constructed);
}

int main(void)
{
    take();
    first = sel_registerName("one");
    second = sel_registerName("two");
    new_one = sel_registerName("three");
    object = class_createInstance(&root, 0);
    of_child = class_createInstance(&child, 0);
    show("at first");
    replace_and_take_back();
    add_one();
    refuse_each();
    exchange();
    look_up();
    object_dispose(object);
    object_dispose(of_child);
    return 0;
}
