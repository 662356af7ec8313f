/* 70,000 changes: each is seen by the next send. */
#include "modules.h"

int main(void)
{
    take();
    SEL first = sel_registerName("one");
    id object = class_createInstance(objc_getClass("Child"), 0);
    int wrong = 0;
    for (int i = 0; i < 70000; i++) {
        class_replaceMethod(&root, first, i & 1 ? one : two, "@16@0:8");
        if (send(object, first) != (i & 1 ? 11 : 12)) wrong++;
    }
    printf("wrong %d\n", wrong);
    printf("set: %d\n",
           method_setImplementation(class_getInstanceMethod(&root, first), two) == one);
    printf("then %ld\n", send(object, first));
    object_dispose(object);
    return 0;
}
