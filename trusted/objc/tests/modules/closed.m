/* Module N: a class, which other classes know nothing of, a category of Base, and a protocol. */
#include "../roots.h"

#define JOIN_(a, b) a##b
#define JOIN(a, b) JOIN_(a, b)

@interface Base { Class isa; }
+ (int)value;
@end
@interface Base (JOIN(Added, N))
+ (int)JOIN(added, N);
@end
@protocol JOIN(Known, N)
- (void)JOIN(known, N);
@end
@interface JOIN(Closed, N) : Base <JOIN(Known, N)>
@end

static int loaded;

@implementation JOIN(Closed, N)
+ (void)load { loaded++; }
+ (int)value { return 100 + N; }
- (void)JOIN(known, N) {}
@end
@implementation Base (JOIN(Added, N))
+ (int)JOIN(added, N) { return N; }
@end

/* How often it was loaded, and what comes of the module's class and of one that is everybody's. */
int ask(void) { return 1000 * loaded + [JOIN(Closed, N) value] + [Base JOIN(added, N)]; }
