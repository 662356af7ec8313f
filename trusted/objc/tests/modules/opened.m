/* A module of the test `opened`, of 64 classes, whose names have its number N, and a category. */
#include "../roots.h"

@interface Base
+ (int)value;
@end

#define JOINED(n, i) Opened##n##_##i
#define NAMED(n, i) JOINED(n, i)
#define ONE(i) \
    @interface NAMED(N, i) : Base \
    @end \
    @implementation NAMED(N, i) \
    + (int)value { return 100 + N; } \
    - (int)own { return 1; } \
    - (int)another { return 2; } \
    @end
#define FOUR(i) ONE(i##0) ONE(i##1) ONE(i##2) ONE(i##3)
#define SIXTEEN(i) FOUR(i##0) FOUR(i##1) FOUR(i##2) FOUR(i##3)
SIXTEEN(0) SIXTEEN(1) SIXTEEN(2) SIXTEEN(3)

#define ADDED(n) added##n
#define ADDED_BY(n) ADDED(n)
@interface Apart
@end
@interface Apart (NAMED(By, N))
@end
@implementation Apart (NAMED(By, N))
+ (int)ADDED_BY(N) { return N; }
@end
