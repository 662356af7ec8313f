/* Methods: what they say of themselves, added, replaced, set, exchanged, listed; of classes and
 * metaclasses. */
#include "roots.h"
#include <stdio.h>
#include <stdlib.h>
#include <string.h>

@interface Lamp : Object
- (int)light:(int)much with:(const char *)what;
- (int)one;
- (int)two;
+ (int)lamps;
@end
@implementation Lamp
- (int)light:(int)much with:(const char *)what { return much; }
- (int)one { return 1; }
- (int)two { return 2; }
+ (int)lamps { return 3; }
@end
@interface Torch : Lamp
@end
@implementation Torch
@end

@interface Bulb : Object
- (int)watts;
@end
@implementation Bulb
- (int)watts { return 20; }
@end
@interface Bulb (Brighter)
- (int)watts;
@end
@implementation Bulb (Brighter)
- (int)watts { return 60; }
@end

static int ten(id self, SEL sel) { return 10; }
static int eleven(id self, SEL sel) { return 11; }

/* As much as there is room for, which has stars in it before; what is filled up with zeros is
 * told as dots. */
static void show_cut(Method method, size_t room)
{
    char result[] = "********", third[] = "********", ninth[] = "********",
         *all[] = {result, third, ninth};
    method_getReturnType(method, result, room);
    method_getArgumentType(method, 2, third, room);
    method_getArgumentType(method, 8, ninth, room);
    printf("in %zu:", room);
    for (int i = 0; i < 3; i++) {
        for (size_t j = 0; j < sizeof result - 1; j++) all[i][j] = all[i][j] ? all[i][j] : '.';
        printf(" %s", all[i]);
    }
    printf("\n");
}

static void show(Method method)
{
    char *type = method_copyReturnType(method);
    printf("%s %s: %u arguments, %s", sel_getName(method_getName(method)),
           method_getTypeEncoding(method), method_getNumberOfArguments(method), type);
    free(type);
    for (unsigned int i = 0; (type = method_copyArgumentType(method, i)); i++, free(type))
        printf(", %s", type);
    printf("\n");
    for (size_t room = 0; room < 6; room++) show_cut(method, room);
    printf("described alike: %d\n",
           method_getDescription(method)->types == method_getTypeEncoding(method));
}

static void show_both(void)
{
    unsigned int count;
    Class bulb = objc_getClass("Bulb");
    Bulb *object = (Bulb *)class_createInstance(bulb, 0);
    Method watts = class_getInstanceMethod(bulb, @selector(watts));
    free(class_copyMethodList(bulb, &count));
    printf("%u of a name: found %d, sent %d\n", count,
           ((int (*)(id, SEL))method_getImplementation(watts))((id)object, @selector(watts)),
           [object watts]);
    object_dispose(object);
}

int main(void)
{
    Class lamp = objc_getClass("Lamp"), torch = objc_getClass("Torch");
    Torch *object = (Torch *)class_createInstance(torch, 0);
    unsigned int count;
    show(class_getInstanceMethod(torch, @selector(light:with:)));
    free(class_copyMethodList(lamp, &count));
    printf("Lamp has %u, ", count);
    free(class_copyMethodList(((id)lamp)->isa, &count));
    printf("its metaclass %u, ", count);
    printf("Torch none %d\n", class_copyMethodList(torch, &count) == NULL && count == 0);
    bool done = class_addMethod(torch, @selector(one), (IMP)ten, "i16@0:8");
    printf("added %d, %d; again %d\n", done, [object one],
           class_addMethod(torch, @selector(one), (IMP)eleven, "i16@0:8"));
    done = class_replaceMethod(torch, @selector(one), (IMP)eleven, "i16@0:8") == (IMP)ten;
    printf("replaced %d, %d; ", done, [object one]);
    done = !class_replaceMethod(torch, @selector(two), (IMP)ten, "i16@0:8");
    printf("anew %d, %d\n", done, [object two]);
    done = method_setImplementation(class_getInstanceMethod(lamp, @selector(two)), (IMP)eleven) !=
           NULL;
    printf("set %d, %d\n", done, [object two]);
    method_exchangeImplementations(class_getInstanceMethod(torch, @selector(one)),
                                   class_getInstanceMethod(torch, @selector(two)));
    printf("exchanged %d %d\n", [object one], [object two]);
    class_replaceMethod(((id)torch)->isa, @selector(lamps), (IMP)ten, "i16@0:8");
    printf("of classes %d %d, found %d\n", [Torch lamps], [Lamp lamps],
           class_getClassMethod(torch, @selector(lamps)) !=
               class_getClassMethod(lamp, @selector(lamps)));
    printf("answers %d, %d, %d\n", class_respondsToSelector(torch, @selector(two)),
           class_respondsToSelector(torch, @selector(lamps)),
           class_getMethodImplementation(torch, @selector(two)) ==
               method_getImplementation(class_getInstanceMethod(torch, @selector(two))));
    printf("of nothing: %d %d %d\n", class_getInstanceMethod(NULL, @selector(one)) == NULL,
           method_getName(NULL) == NULL, class_addMethod(torch, NULL, (IMP)ten, "i16@0:8"));
    printf("no types: %d %d %d\n", method_copyReturnType(NULL) == NULL,
           method_copyArgumentType(NULL, 0) == NULL,
           method_copyArgumentType(class_getInstanceMethod(torch, @selector(one)), -1) == NULL);
    show_cut(NULL, 2);
    object_dispose(object);
    show_both();
    return 0;
}
