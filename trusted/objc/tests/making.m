/* Classes made at run time: under a class, as a root, given up, of a name that is taken; what is
 * asked of one in construction; and 2,000 of them while another thread sends. */
#include "roots.h"
#include <pthread.h>
#include <sched.h>
#include <stdio.h>
#include <stdlib.h>
#include <string.h>

@interface Maker : Object
- (long)number;
+ (const char *)kind;
@end
static int initialized;
@implementation Maker
+ (void)initialize { initialized++; }
- (long)number { return 1; }
+ (const char *)kind { return "maker"; }
@end

@protocol Unfinished
- (void)finish;
@end

enum { MADE = 2000 };

static int stop, sends;
static long two(id self, SEL sel) { return 2; }
static const char *kind(id self, SEL sel) { return "made"; }

static void *work(void *object)
{
    size_t wrong = 0;
    while (!__atomic_load_n(&stop, __ATOMIC_SEQ_CST))
        if ([(Maker *)object number] != 1) wrong++;
        else __atomic_fetch_add(&sends, 1, __ATOMIC_SEQ_CST);
    return (void *)wrong;
}

static int make_many(Class maker)
{
    int wrong = 0;
    for (int i = 0; i < MADE; i++) {
        char name[16];
        snprintf(name, sizeof name, "Made%d", i);
        Class made = objc_allocateClassPair(maker, name, 0);
        class_addMethod(made, @selector(number), (IMP)two, "l16@0:8");
        objc_registerClassPair(made);
        Maker *object = (Maker *)class_createInstance(objc_getClass(name), 0);
        if ([object number] != 2 || strcmp(object_getClassName(object), name)) wrong++;
        object_dispose(object);
        maker = i % 5 ? made : objc_getClass("Maker");
        int is = __atomic_load_n(&sends, __ATOMIC_SEQ_CST);
        while (i % 100 == 0 && __atomic_load_n(&sends, __ATOMIC_SEQ_CST) == is) sched_yield();
    }
    return wrong;
}

/* It answers, and none of that is its first message. */
static void ask_unfinished(Class made, Class meta, SEL lacking)
{
    int before = initialized;
    printf("unfinished: %s, as above %d, something to call %d\n", [(Class)made kind],
           class_getMethodImplementation(made, @selector(number)) ==
               class_getMethodImplementation(objc_getClass("Maker"), @selector(number)),
           class_getMethodImplementation(made, lacking) != NULL);
    printf("has %d %d, lacks %d %d, responds %d, initialized %d\n",
           class_getInstanceMethod(made, @selector(number)) != NULL,
           class_getClassMethod(made, @selector(kind)) != NULL,
           class_getInstanceMethod(made, lacking) == NULL,
           class_getClassMethod(made, lacking) == NULL,
           class_respondsToSelector(made, @selector(number)), initialized - before);
    unsigned int methods, variables;
    free(class_copyMethodList(meta, &methods));
    free(class_copyIvarList(made, &variables));
    printf("lists %u, of variables %u\n", methods, variables);
}

/* A class is finished or given up by itself, not by its metaclass. What is given up takes all that
 * it has along, and its name is free again; what is finished stays. */
static void give_up(Class maker)
{
    Class made = objc_allocateClassPair(maker, "Unfinished", 0), meta = ((id)made)->isa;
    class_addMethod(meta, @selector(kind), (IMP)kind, "*16@0:8");
    class_addMethod(made, @selector(kind), (IMP)kind, "*16@0:8");
    class_addMethod(made, sel_registerName("another"), (IMP)two, "l16@0:8");
    class_addIvar(made, "letter", 1, 0, "c");
    class_addIvar(made, "other", 1, 0, "c");
    class_addProtocol(made, @protocol(Unfinished));
    ask_unfinished(made, meta, sel_registerName("lacking"));
    objc_registerClassPair(meta);
    objc_disposeClassPair(meta);
    printf("by its metaclass: %d, ", objc_getClass("Unfinished") != NULL);
    printf("an instance's %d\n", class_conformsToProtocol(made, @protocol(Unfinished)));
    objc_disposeClassPair(made);
    made = objc_allocateClassPair(maker, "Unfinished", 0);
    for (int time = 0; time < 2; time++) objc_registerClassPair(made);
    objc_disposeClassPair(made);
    int before = initialized;
    printf("finished: %d, %s, ", objc_getClass("Unfinished") == made, [(Class)made kind]);
    printf("initialized %d, the metaclass's %d\n", initialized - before,
           ((id)((id)made)->isa)->isa == ((id)((id)objc_getClass("Object"))->isa)->isa);
}

static void make_root(const char *name, const char *isa_name)
{
    Class root = objc_allocateClassPair(NULL, name, 0);
    class_addIvar(root, isa_name, sizeof(Class), 3, "#");
    class_addIvar(root, "count", sizeof(int), 2, "i");
    objc_registerClassPair(root);
    id object = class_createInstance(root, 0);
    void *isa = NULL;
    object_getInstanceVariable(object, isa_name, &isa);
    printf("its isa %d, size %zu\n", isa == (void *)root, class_getInstanceSize(root));
    object_dispose(object);
}

int main(void)
{
    Class maker = objc_getClass("Maker");
    int before = objc_getClassList(NULL, 0);
    bool has = class_getClassMethod(maker, sel_registerName("lacks")) != NULL;
    printf("lacks: %d, initialized %d\n", has, initialized);
    Class made = objc_allocateClassPair(maker, "Made", 0);
    printf("in construction: found %d, under %s\n", objc_getClass("Made") != NULL,
           class_getName(class_getSuperclass(made)));
    class_addMethod(((id)made)->isa, @selector(kind), (IMP)kind, "*16@0:8");
    printf("instance of it: %d, class under it: %d\n", class_createInstance(made, 0) != nil,
           objc_allocateClassPair(made, "Under", 0) != NULL);
    objc_registerClassPair(made);
    Maker *object = (Maker *)class_createInstance(made, 0);
    printf("number %ld, kind %s and %s\n", [object number], [(Class)made kind], [Maker kind]);
    printf("metaclass %d, its superclass %d\n", class_isMetaClass(((id)made)->isa),
           class_getSuperclass(((id)made)->isa) == ((id)maker)->isa);
    printf("taken: %d, one more class: %d\n", objc_allocateClassPair(maker, "Made", 0) != NULL,
           objc_getClassList(NULL, 0) - before);
    objc_disposeClassPair(objc_allocateClassPair(maker, "Given up", 0));
    printf("given up: %d\n", objc_getClass("Given up") == NULL);
    give_up(maker);
    Class root = objc_allocateClassPair(NULL, "Rooted", 0);
    class_addMethod(root, @selector(number), (IMP)two, "l16@0:8");
    objc_registerClassPair(root);
    id rooted = class_createInstance(root, 0);
    printf("root %ld, size %zu\n", [(Maker *)rooted number], class_getInstanceSize(root));
    make_root("Begun", "isa");
    make_root("Other root", "class_pointer");
    pthread_t thread;
    void *wrong;
    pthread_create(&thread, NULL, work, object);
    printf("made wrong: %d\n", make_many(maker));
    __atomic_store_n(&stop, 1, __ATOMIC_SEQ_CST);
    pthread_join(thread, &wrong);
    printf("sent wrong: %zu\n", (size_t)wrong);
    object_dispose(object);
    object_dispose(rooted);
    return 0;
}
