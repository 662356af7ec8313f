/* A class is made beside a thread that waits for its name: who finds it can send what it has. */
#include "roots.h"
#include <pthread.h>
#include <stdio.h>

enum { MADE = 60, METHODS = 20 };

__attribute__((objc_root_class)) @interface Base { Class isa; }
+ (int)value;
@end
@implementation Base
+ (int)value { return 1; }
@end

static int wrong, waited = -1;
static SEL value, first, last, none; /* there before, since a name is registered under a lock */

static int five(id self, SEL sel) { return 5; }
static int six(id self, SEL sel) { return 6; }

static int sent(Class class_, SEL sel)
{
    return ((int (*)(id, SEL))objc_msg_lookup((id)class_, sel))((id)class_, sel);
}

static void *find(void *nothing)
{
    for (int i = 0; i < MADE; i++) {
        char name[32];
        Class class_;
        snprintf(name, sizeof name, "Made%d", i);
        while (!(class_ = objc_lookUpClass(name))) __atomic_store_n(&waited, i, __ATOMIC_SEQ_CST);
        int right =
            class_respondsToSelector(class_, first) && !class_respondsToSelector(class_, none);
        right = right && sent(class_, value) == 6 && sent(class_, last) == 6;
        if (!right) wrong++;
    }
    return nothing;
}

static void make(int i)
{
    char name[32];
    snprintf(name, sizeof name, "Made%d", i);
    Class class_ = objc_allocateClassPair(objc_getClass("Base"), name, 0), meta = class_->isa;
    class_addMethod(meta, sel_registerName("value"), (IMP)six, "i16@0:8");
    for (int j = 0; j < METHODS; j++) {
        snprintf(name, sizeof name, "method%d", j);
        class_addMethod(meta, sel_registerName(name), (IMP)six, "i16@0:8");
        class_addMethod(class_, sel_registerName(name), (IMP)five, "i16@0:8");
    }
    objc_registerClassPair(class_);
}

int main(void)
{
    pthread_t thread;
    [Base value];
    value = sel_registerName("value");
    first = sel_registerName("method0");
    last = sel_registerName("method19");
    none = sel_registerName("none");
    pthread_create(&thread, NULL, find, NULL);
    for (int i = 0; i < MADE; i++) {
        while (__atomic_load_n(&waited, __ATOMIC_SEQ_CST) < i) [Base value];
        make(i);
    }
    pthread_join(thread, NULL);
    printf("wrong %d\n", wrong);
    return 0;
}
