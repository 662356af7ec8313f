/* A class that comes before its superclass, with a category of its own and one of a class that
 * never comes: until then it is not found, and refused, and nobody else has its name; then it has
 * all of that. */
#include "modules.h"
#include "msg_objc.h"

static int loads;
static id load(id self, SEL sel, ...)
{
    (void)sel;
    loads++;
    return self;
}

#define LIST(name_, text_, function) \
    static struct { \
        struct method_list *next; \
        int32_t count; \
        struct objc_method rows[1]; \
    } name_ = {NULL, 1, {{.name.text = text_, "@16@0:8", function}}}
LIST(of_early, "own", one);
LIST(of_category, "added", two);
LIST(of_metaclass, "load", load);
LIST(of_awaited, "above", two);
#define METHODS(list) ((struct method_list *)&list)

static struct objc_class early_meta = {.name = "Early", .info = 2, .instance_size = 104};
static struct objc_class early = {.isa = &early_meta,
                                  .superclass.text = "Awaited",
                                  .name = "Early",
                                  .info = 1,
                                  .instance_size = 8,
                                  .methods = METHODS(of_early)};
static struct objc_class awaited_meta = {.name = "Awaited", .info = 2, .instance_size = 104};
static struct objc_class awaited = {.isa = &awaited_meta,
                                    .name = "Awaited",
                                    .info = 1,
                                    .instance_size = 8,
                                    .methods = METHODS(of_awaited)};
static struct objc_category category = {"Own", "Early", METHODS(of_category), METHODS(of_metaclass),
                                        NULL},
                            nobodys = {"Nobodys", "Nobody", NULL, NULL, NULL};

struct some {
    unsigned long ref_count;
    struct objc_selector *refs;
    uint16_t class_count, category_count;
    void *defs[4];
};
static struct some early_symbols = {0, NULL, 1, 2, {&early, &category, &nobodys, NULL}},
                   awaited_symbols = {0, NULL, 1, 0, {&awaited, NULL}};
static struct module early_module = {8, sizeof early_module, "early", (void *)&early_symbols},
                     awaited_module = {8, sizeof awaited_module, "late", (void *)&awaited_symbols};

static void ask(SEL own)
{
    unsigned int count = 7;
    struct objc_method_swap swap = {&early, own, two, "@16@0:8"};
    struct objc_method_lookup lookup = {&early, own, NULL};
    printf("found %d, under %d, named %s", objc_getClass("Early") != NULL,
           class_getSuperclass(&early) != NULL, class_getName(&early));
    printf(", knows %d %d", class_getInstanceMethod(&early, own) != NULL,
           class_respondsToSelector(&early, own));
    printf(", lists %d", class_copyMethodList(&early, &count) != NULL);
    printf(" %u", count);
    printf(", has %d %d", class_getInstanceVariable(&early, "none") != NULL,
           class_addIvar(&early, "none", 1, 0, "c"));
    printf(", takes %d %d %d", class_addMethod(&early, own, two, "@16@0:8"),
           class_replaceMethod(&early, own, two, "@16@0:8") != NULL,
           objc_allocateClassPair(&early, "Under", 0) != NULL);
    printf(", another of its name %d", objc_allocateClassPair(NULL, "Early", 0) != NULL);
    printf(", at once %zu %zu; loaded %d\n", objc_replace_methods(&swap, 1),
           objc_lookup_methods(&lookup, 1), loads);
}

int main(void)
{
    (void)take;
    SEL own = sel_registerName("own");
    Class rival = objc_allocateClassPair(NULL, "Early", 0);
    __objc_exec_class(&early_module);
    objc_registerClassPair(rival);
    ask(own);
    __objc_exec_class(&awaited_module);
    printf("found %d, under %d, knows %d; loaded %d\n", objc_getClass("Early") == &early,
           class_getSuperclass(&early) == &awaited, class_getInstanceMethod(&early, own) != NULL,
           loads);
    id object = class_createInstance(&early, 0);
    printf("sent: %ld %ld %ld\n", send(object, own), send(object, sel_registerName("added")),
           send(object, sel_registerName("above")));
    object_dispose(object);
    printf("a pair below a metaclass: %d\n",
           objc_allocateClassPair(&early_meta, "Under", 0) != NULL);
    objc_disposeClassPair(rival);
    return 0;
}
