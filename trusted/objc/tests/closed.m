/* Modules that are closed, and opened again: what they brought is there as before, beside a thread
 * that uses their classes; +load isn't sent again. */
#include "roots.h"
#include <dlfcn.h>
#include <pthread.h>
#include <sched.h>
#include <stdio.h>
#include <stdlib.h>
#include <string.h>

enum { MODULES_COUNT = 6, TURNS = 3 };

__attribute__((objc_root_class)) @interface Base { Class isa; }
+ (int)value;
@end
@implementation Base
+ (int)value { return 1; }
@end

static int wrong, over, rounds;

static void must(int holds) { if (!holds) __atomic_fetch_add(&wrong, 1, __ATOMIC_SEQ_CST); }

static int sent(Class class_, SEL sel)
{
    return ((int (*)(id, SEL))objc_msg_lookup((id)class_, sel))((id)class_, sel);
}

static char *named(const char *begin, int module)
{
    static _Thread_local char name[32];
    snprintf(name, sizeof name, "%s%d", begin, module);
    return name;
}

/* What was found in the module's own memory. */
static void look(int module)
{
    Class class_ = objc_getClass(named("Closed", module));
    must(class_ && !strcmp(class_getName(class_), named("Closed", module)));
    must(sent(class_, sel_registerName("value")) == 100 + module);
    SEL added = sel_registerName(named("added", module));
    must(sent(objc_getClass("Base"), added) == module &&
         !strcmp(sel_getName(added), named("added", module)));
    Protocol *known = objc_getProtocol(named("Known", module));
    must(known && class_conformsToProtocol(class_, known) &&
         !strcmp(protocol_getName(known), named("Known", module)));
    Method method = class_getClassMethod(class_, sel_registerName("value"));
    must(method_getNumberOfArguments(method) == 2 &&
         !strcmp(sel_getName(method_getName(method)), "value"));
}

static void open_and_close(int module)
{
    char path[512];
    snprintf(path, sizeof path, "%s.%d.so", MODULES, module);
    void *handle = dlopen(path, RTLD_NOW | RTLD_LOCAL);
    int (*ask)(void) = handle ? (int (*)(void))dlsym(handle, "ask") : NULL;
    must(ask && ask() == 1100 + 2 * module);
    must(handle && !dlclose(handle));
}

/* Where the module would have lain. */
static void take_memory(void)
{
    void *blocks[64];
    for (int i = 0; i < 64; i++) {
        blocks[i] = malloc(100000);
        memset(blocks[i], 0x55, 100000);
        sel_registerName(named("noise", rand() % 10000));
    }
    for (int i = 0; i < 64; i++) free(blocks[i]);
}

static void *use(void *none)
{
    while (!__atomic_load_n(&over, __ATOMIC_SEQ_CST)) {
        for (int module = 0; module < MODULES_COUNT; module++)
            if (objc_lookUpClass(named("Closed", module))) look(module);
        __atomic_fetch_add(&rounds, 1, __ATOMIC_SEQ_CST);
    }
    return none;
}

int main(void)
{
    pthread_t thread;
    [Base value];
    pthread_create(&thread, NULL, use, NULL);
    for (int turn = 0; turn < TURNS; turn++)
        for (int module = 0; module < MODULES_COUNT; module++) {
            open_and_close(module);
            take_memory();
            look(module);
            int is = __atomic_load_n(&rounds, __ATOMIC_SEQ_CST);
            while (__atomic_load_n(&rounds, __ATOMIC_SEQ_CST) == is) sched_yield();
        }
    __atomic_store_n(&over, 1, __ATOMIC_SEQ_CST);
    pthread_join(thread, NULL);
    printf("closed %d times, wrong %d\n", TURNS * MODULES_COUNT, wrong);
    return 0;
}
