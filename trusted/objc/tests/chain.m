/* Sends as a compiler emits them: own and inherited methods, super, a category, class methods,
 * +load and +initialize, nil. */
#include "calls.h"
#include <stdio.h>

__attribute__((objc_root_class)) @interface Shape { Class isa; }
+ (id)make;
- (int)sides;
- (int)area;
@end
@interface Square : Shape
@end
@interface Square (Doubled)
- (int)doubled;
@end

static int loads, initializes;

@implementation Shape
+ (void)load { loads++; }
+ (void)initialize { initializes++; }
+ (id)make { return class_createInstance((Class)self, 0); }
- (int)sides { return 4; }
- (int)area { return 1; }
@end
@implementation Square
+ (void)load { loads += 10; }
- (int)area { return [super area] + 8; }
@end
@implementation Square (Doubled)
- (int)doubled { return 2 * [self area]; }
@end

int main(void)
{
    printf("loads %d, initializes %d\n", loads, initializes);
    Square *square = [Square make];
    printf("initializes %d\n", initializes);
    printf("sides %d, area %d, doubled %d\n", [square sides], [square area], [square doubled]);
    Shape *none = 0;
    printf("nil: %d\n", [none area]);
    object_dispose((id)square);
    return 0;
}
