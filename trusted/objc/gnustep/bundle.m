/* A bundle of 40 classes with 12 methods each, and of categories of two classes of Foundation's;
 * N is its number. */
#import <Foundation/Foundation.h>

#define JOINED(a, n, b) a##n##b
#define NAMED(a, n, b) JOINED(a, n, b)
#define METHOD(i) - (int)NAMED(own, N, _##i) { return N; }
#define FOUR_METHODS(i) METHOD(i##0) METHOD(i##1) METHOD(i##2) METHOD(i##3)
#define ONE(i) \
    @interface NAMED(Loaded, N, _##i) : NSObject \
    @end \
    @implementation NAMED(Loaded, N, _##i) \
    + (int)loadedValue { return 100 + N; } \
    - (NSString *)description { return [super description]; } \
    FOUR_METHODS(a) FOUR_METHODS(b) FOUR_METHODS(c) \
    @end
#define TEN(i) ONE(i##0) ONE(i##1) ONE(i##2) ONE(i##3) ONE(i##4) ONE(i##5) ONE(i##6) ONE(i##7) ONE(i##8) ONE(i##9)
TEN(0) TEN(1) TEN(2) TEN(3)

@interface NSString (NAMED(Loaded, N, ))
@end
@implementation NSString (NAMED(Loaded, N, ))
- (int)NAMED(added, N, ) { return N; }
@end
@interface NSObject (NAMED(Loaded, N, ))
@end
@implementation NSObject (NAMED(Loaded, N, ))
+ (int)NAMED(addedToAll, N, ) { return 1000 + N; }
@end
