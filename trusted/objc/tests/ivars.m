/* Instance variables: by name, of a superclass, their offsets and types, read and written; of a
 * class in construction, and of the runtime's own. */
#include "roots.h"
#include <stdio.h>
#include <stdlib.h>
#include <string.h>

@interface Box : Object { @public char mark; id held; int sizes[3]; }
@end
@implementation Box
@end
@interface Case : Box { double weight; }
@end
@implementation Case
@end

@protocol Shown
- (void)show;
@end

static void show(Class class_)
{
    unsigned int count;
    Ivar *list = class_copyIvarList(class_, &count);
    for (unsigned int i = 0; i < count; i++)
        printf("%s %ld %s\n", ivar_getName(list[i]), (long)ivar_getOffset(list[i]),
               ivar_getTypeEncoding(list[i]));
    if (count && list[count]) printf("the list has no end\n");
    free(list);
}

int main(void)
{
    Class box = objc_getClass("Box"), case_ = objc_getClass("Case");
    show(box);
    show(case_);
    id object = class_createInstance(case_, 16);
    void *read;
    printf("set %d\n", object_setInstanceVariable(object, "held", object) ==
                           class_getInstanceVariable(box, "held"));
    bool found = object_getInstanceVariable(object, "held", &read) != NULL;
    printf("get %d, %d, where it is %d\n", found, read == object, ((Box *)object)->held == object);
    printf("the same %d, lost %d, of a metaclass %d\n",
           object_getIvar(object, class_getInstanceVariable(case_, "held")) == object,
           object_getInstanceVariable(object, "lost", &read) != NULL,
           class_getInstanceVariable(((id)case_)->isa, "isa") != NULL);
    object_setIvar(object, class_getInstanceVariable(case_, "held"), nil);
    printf("none %d, unknown %d\n",
           object_getIvar(object, class_getInstanceVariable(case_, "held")) == nil,
           class_getInstanceVariable(case_, "lost") != NULL);
    strcpy(object_getIndexedIvars(object), "behind");
    printf("size %zu, %s\n", class_getInstanceSize(case_),
           (char *)object + class_getInstanceSize(case_));
    printf("added to a class that is there: %d\n", class_addIvar(case_, "late", 8, 3, "@"));
    object_dispose(object);
    Class made = objc_allocateClassPair(case_, "Made", 0);
    printf("added %d ", class_addIvar(made, "letter", 1, 0, "c"));
    printf("%d, ", class_addIvar(made, "long_", 8, 3, "l"));
    printf("twice %d\n", class_addIvar(made, "letter", 1, 0, "c"));
    objc_registerClassPair(made);
    show(made);
    printf("size %zu\n", class_getInstanceSize(made));
    const char *const own[] = {"Object", "Protocol", "NXConstantString"};
    for (int i = 0; i < 3; i++) show(objc_getClass(own[i]));
    printf("a protocol's name: %s\n",
           *(char **)((char *)@protocol(Shown) + ivar_getOffset(class_getInstanceVariable(
                                                     objc_getClass("Protocol"), "protocol_name"))));
    return 0;
}
