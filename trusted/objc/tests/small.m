/* Answers that are easily given otherwise; each is as GCC's libobjc gives it. */
#include "roots.h"
#include <stdio.h>
#include <stdlib.h>

__attribute__((objc_root_class)) @interface Base { Class isa; }
+ (int)value;
- (int)two;
@end
@interface Base (More)
- (int)two;
@end
@implementation Base
+ (int)value { return 1; }
- (int)two { return 2; }
@end
@implementation Base (More)
- (int)two { return 22; }
@end

static int added(id self, SEL sel) { return 4; }

static void tell_methods(Class class_)
{
    unsigned int count;
    Method *list = class_copyMethodList(class_, &count);
    for (unsigned int i = 0; i < count; i++) {
        int (*call)(id, SEL) = (int (*)(id, SEL))method_getImplementation(list[i]);
        printf("%s answers %d\n", sel_getName(method_getName(list[i])),
               call(nil, method_getName(list[i])));
    }
    free(list);
}

static void tell_names(const char *name)
{
    unsigned int count;
    Method *list = class_copyMethodList(objc_getClass(name), &count);
    printf("%s:", name);
    for (unsigned int i = 0; i < count; i++) printf(" %s", sel_getName(method_getName(list[i])));
    printf("\n");
    free(list);
}

static void tell_locks(void)
{
    objc_mutex_t mutex = objc_mutex_allocate();
    printf("not held: %d\n", objc_mutex_deallocate(mutex));
    mutex = objc_mutex_allocate();
    objc_mutex_lock(mutex);
    objc_mutex_lock(mutex);
    printf("held twice: %d\n", objc_mutex_deallocate(mutex));
    printf("none: %d\n", objc_mutex_deallocate(NULL));
    objc_thread_add(); /* without a callback */
}

static void tell_layout(void)
{
    struct objc_struct_layout layout;
    unsigned int offset, align;
    const char *type;
    objc_layout_structure("{n=dcs}", &layout);
    while (objc_layout_structure_next_member(&layout)) {
        objc_layout_structure_get_info(&layout, &offset, &align, &type);
        printf("%c at %u, by %u so far\n", *type, offset, align);
    }
}

int main(void)
{
    Class base = objc_getClass("Base");
    printf("%s %s\n", class_getName(NULL), object_getClassName(nil));
    class_addMethod(base, sel_registerName("four"), (IMP)added, "i16@0:8");
    tell_methods(base);
    tell_names("Object");
    tell_names("NXConstantString");
    tell_names("Protocol");
    tell_locks();
    tell_layout();
    printf("a class is no object to free: %d, %d\n", object_dispose((id)base) == nil, [Base value]);
    printf("an object is: %d\n", object_dispose(class_createInstance(base, 0)) == nil);
    SEL two = @selector(two), none = sel_registerName("none");
    printf("responds: %d %d", class_respondsToSelector(base, two),
           class_respondsToSelector(base, none));
    printf(" %d\n", class_respondsToSelector(NULL, two));
    class_ivar_set_gcinvisible(base, "isa", 1);
    printf("asked by another name: %d %d\n", __objc_responds_to((id)base, two),
           __objc_responds_to((id)base, none));
    return 0;
}
