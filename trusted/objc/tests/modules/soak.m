/* A module of which the soak makes others, by another number in the place of each 0000. */
#include "../roots.h"

@interface Root { Class isa; }
@end
@protocol Soaked0000
- (int)own0000;
@end
@interface Soak0000 : Root <Soaked0000>
@end
@interface Root (More0000)
+ (int)more0000;
@end

static int loaded;

@implementation Soak0000
+ (void)load { loaded++; }
+ (void)initialize { loaded++; }
+ (int)value { return loaded; }
- (int)own0000 { return 3; }
@end
@implementation Root (More0000)
+ (int)more0000 { return 4; }
@end

int ask(void) { return [Soak0000 value] + [Root more0000]; }
