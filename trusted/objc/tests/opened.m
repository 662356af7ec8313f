/* Modules are loaded beside threads that find their classes by name: who finds one can ask it
 * and send to it, and has all that its module brings to other classes, also where it was noted
 * before that there is no such method. A metaclass keeps the protocol that it was given. */
#include "roots.h"
#include <dlfcn.h>
#include <pthread.h>
#include <stdio.h>

enum { MODULES_COUNT = 6 };

__attribute__((objc_root_class)) @interface Base { Class isa; }
+ (int)value;
@end
@implementation Base
+ (int)value { return 1; }
@end
/* Of which no change of Base takes anything out of a cache. */
__attribute__((objc_root_class)) @interface Apart { Class isa; }
@end
@implementation Apart
@end
@protocol Given
- (int)given;
@end

static int wrong, found, waiting[2] = {-1, -1};
/* there before, since a name is registered under a lock */
static SEL value, own, added[MODULES_COUNT];

static void count(int *at) { __atomic_fetch_add(at, 1, __ATOMIC_SEQ_CST); }

static int sent(Class class_, SEL sel)
{
    return ((int (*)(id, SEL))objc_msg_lookup((id)class_, sel))((id)class_, sel);
}

static int is_right(Class class_, int module, int asks)
{
    if (asks)
        return class_respondsToSelector(class_, own) && !class_respondsToSelector(class_, value);
    return sent(class_, value) == 100 + module;
}

static int is_whole(int module)
{
    return class_respondsToSelector(objc_getMetaClass("Apart"), added[module]);
}

/* Those of each module's classes that come first, in the middle and last. */
static void *find(void *asks)
{
    static const char *const ends[] = {"000", "133", "212", "333"};
    for (int module = 0; module < MODULES_COUNT; module++)
        for (int i = 0; i < 4; i++) {
            char name[32];
            Class class_;
            snprintf(name, sizeof name, "Opened%d_%s", module, ends[i]);
            do {
                if (asks) is_whole(module);
                else if (sent(objc_getClass("Base"), value) != 1) count(&wrong);
                class_ = objc_lookUpClass(name);
                __atomic_store_n(&waiting[asks != NULL], module, __ATOMIC_SEQ_CST);
            } while (!class_);
            if (!is_whole(module) || !is_right(class_, module, asks != NULL)) count(&wrong);
            count(&found);
        }
    return NULL;
}

static void load(int module)
{
    char path[512];
    snprintf(path, sizeof path, "%s.%d.so", MODULES, module);
    if (!dlopen(path, RTLD_NOW)) {
        printf("%s\n", dlerror());
        count(&wrong);
    }
    if (sent(objc_getClass("Apart"), added[module]) != module) count(&wrong);
}

int main(void)
{
    pthread_t threads[2];
    value = sel_registerName("value");
    own = sel_registerName("own");
    for (int module = 0; module < MODULES_COUNT; module++) {
        char name[32];
        snprintf(name, sizeof name, "added%d", module);
        added[module] = sel_registerName(name);
    }
    [Base value];
    if (!class_addProtocol(objc_getMetaClass("Apart"), @protocol(Given))) count(&wrong);
    for (int i = 0; i < 2; i++) pthread_create(&threads[i], NULL, find, i ? &wrong : NULL);
    for (int module = 0; module < MODULES_COUNT; module++) {
        for (int i = 0; i < 2; i++)
            while (__atomic_load_n(&waiting[i], __ATOMIC_SEQ_CST) < module) [Base value];
        load(module);
    }
    for (int i = 0; i < 2; i++) pthread_join(threads[i], NULL);
    if (!class_conformsToProtocol(objc_getMetaClass("Apart"), @protocol(Given))) count(&wrong);
    printf("found %d, wrong %d\n", found, wrong);
    return 0;
}
