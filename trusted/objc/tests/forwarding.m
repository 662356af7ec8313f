/* Where no method is found: a class adds one, a hook of the program's, forward:: with its
 * arguments, doesNotRecognize:. */
#include "roots.h"
#include <stdio.h>
#include <stdlib.h>

struct wide { long parts[3]; };
union either { long parts[3]; double other; };

@interface Target : Object
- (struct wide)wide;
- (union either)either;
- (long)sum:(long)one and:(long)other;
- (double)half;
- (long)late;
- (long)hooked;
- (void)lost;
+ (long)late;
@end

@interface Adding : Target
@end
@implementation Adding
static long late(id self, SEL sel) { return 12; }
+ (BOOL)resolveInstanceMethod:(SEL)sel
{
    return sel_isEqual(sel, @selector(late)) &&
           class_addMethod((Class)self, sel, (IMP)late, "l16@0:8");
}
+ (BOOL)resolveClassMethod:(SEL)sel
{
    return class_addMethod(((id)self)->isa, sel, (IMP)late, "l16@0:8");
}
@end
@implementation Target
@end

@interface Passing : Target { @public id to; }
- (void *)forward:(SEL)sel :(void *)frame;
@end
@implementation Passing
static long sum(id self, SEL sel, long one, long other) { return one + other; }
static double half(id self, SEL sel) { return 0.5; }
static struct wide wide(id self, SEL sel) { return (struct wide){{1, 2, 3}}; }
- (void *)forward:(SEL)sel :(void *)frame
{
    printf("forwarded %s\n", sel_getName(sel));
    bool is_wide = sel_isEqual(sel, @selector(wide)) || sel_isEqual(sel, @selector(either));
    void *function = sel_isEqual(sel, @selector(half)) ? (void *)half
                     : is_wide                         ? (void *)wide
                                                       : (void *)sum;
    return __builtin_apply((void (*)())function, frame, 64);
}
@end

@interface Asking : Target
- (void)doesNotRecognize:(SEL)sel;
@end
@implementation Asking
- (void)doesNotRecognize:(SEL)sel { printf("not recognized: %s\n", sel_getName(sel)); }
@end

static int asked;
static BOOL resolve_late(id self, SEL sel, SEL lacking)
{
    return asked++ && class_addMethod((Class)self, lacking, (IMP)late, "l16@0:8");
}
static long by_hook(id self, SEL sel) { return 13; }
static IMP hook(id self, SEL sel)
{
    return sel_isEqual(sel, @selector(hooked)) ? (IMP)by_hook : NULL;
}
static long by_older_hook(id self, SEL sel) { return 14; }
static IMP older_hook(SEL sel)
{
    return sel_isEqual(sel, @selector(hooked)) ? (IMP)by_older_hook : NULL;
}

static void forward_wide(Target *target)
{
    struct wide wide = [target wide];
    printf("%ld %ld %ld\n", wide.parts[0], wide.parts[1], wide.parts[2]);
    union either either = [target either];
    printf("%ld %ld %ld\n", either.parts[0], either.parts[1], either.parts[2]);
}

int main(void)
{
    Target *adding = (Target *)class_createInstance(objc_getClass("Adding"), 0),
           *passing = (Target *)class_createInstance(objc_getClass("Passing"), 0);
    Target *asking = (Target *)class_createInstance(objc_getClass("Asking"), 0);
    printf("answers %d, added %ld, of the class %ld\n",
           class_respondsToSelector([adding class], @selector(late)), [adding late], [Adding late]);
    long answer = [passing sum:20 and:30];
    printf("%ld\n", answer);
    double half = [passing half];
    printf("%g\n", half);
    forward_wide(passing);
    [asking lost];
    printf("nothing %g\n", [asking half]);
    __objc_msg_forward = older_hook;
    printf("hooked %ld\n", [asking hooked]);
    __objc_msg_forward2 = hook;
    printf("hooked %ld\n", [asking hooked]);
    [asking lost];
    [asking lost];
    printf("late %d\n", class_respondsToSelector([asking class], @selector(late)));
    class_addMethod(((id)[asking class])->isa, @selector(resolveInstanceMethod:), (IMP)resolve_late,
                    "c@:@:");
    printf("asks no resolver %d\n", class_respondsToSelector([asking class], @selector(late)));
    for (int time = 0; time < 2; time++) printf("resolved later %ld\n", [asking late]);
    printf("answers %d\n", class_respondsToSelector([asking class], @selector(late)));
    object_dispose(adding);
    object_dispose(passing);
    object_dispose(asking);
    return 0;
}
