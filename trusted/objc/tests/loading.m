/* +load: a superclass's first, then a category's, each once, before main, and no -load; the
 * callback for each class; +initialize: once each, before the first send. */
#include "roots.h"
#include <stdio.h>

static int called;
static void on_load(Class class_, struct objc_category *category) { called++; }

@interface Middle : Object
@end
@interface Lowest : Middle
+ (int)value;
@end
@implementation Lowest
+ (void)load { printf("load Lowest\n"); }
- (void)load { printf("load an instance of %s\n", object_getClassName((id)self)); }
+ (int)value { printf("value\n"); return 1; }
@end
@interface Lowest (More)
@end
@implementation Lowest (More)
+ (void)load { printf("load a category of %s\n", class_getName((Class)self)); }
@end
@implementation Middle
+ (void)load { printf("load Middle\n"); _objc_load_callback = on_load; }
+ (void)initialize { printf("initialize %s for %s\n", "Middle", class_getName((Class)self)); }
@end
@interface Alone : Object
+ (void)nothing;
@end
@implementation Alone
+ (void)initialize { printf("initialize Alone\n"); [self nothing]; }
+ (void)nothing { printf("nothing\n"); }
@end

int main(void)
{
    printf("main, called %d\n", called > 0);
    [Lowest value];
    [Lowest value];
    [Alone nothing];
    Class lowest = objc_getClass("Lowest"), object = objc_getClass("Object");
    printf("a metaclass's class is the root's: %d\n",
           ((id)((id)lowest)->isa)->isa == ((id)((id)object)->isa)->isa);
    return 0;
}
