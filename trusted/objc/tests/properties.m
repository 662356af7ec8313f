/* Synthesized accessors: kept, copied, of a structure, atomic or not; and that no property is
 * listed. */
#include "roots.h"
#include <stdio.h>

struct pair { long first, second; };

static int retained, released, copied, changeable, autoreleased;

@interface Counted : Object
- (id)retain;
- (void)release;
- (id)autorelease;
- (id)copyWithZone:(void *)zone;
- (id)mutableCopyWithZone:(void *)zone;
@end
@implementation Counted
- (id)retain { retained++; return self; }
- (void)release { released++; }
- (id)autorelease { autoreleased++; return self; }
- (id)copyWithZone:(void *)zone { copied++; return class_createInstance([self class], 0); }
- (id)mutableCopyWithZone:(void *)zone { changeable++; return self; }
@end

@interface Holder : Object { id kept; id own; id loose; struct pair pair; int plain; }
@property (retain) id kept;
@property (copy) id own;
@property (nonatomic, assign) id loose;
@property struct pair pair;
@property int plain;
@end
@implementation Holder
@synthesize kept, own, loose, pair, plain;
@end

int main(void)
{
    Counted *value = (Counted *)class_createInstance(objc_getClass("Counted"), 0);
    Holder *holder = (Holder *)class_createInstance(objc_getClass("Holder"), 0);
    holder.kept = value;
    holder.kept = value;
    printf("retained %d, released %d\n", retained, released);
    printf("kept %d, ", holder.kept == value);
    printf("read with retain and autorelease: %d %d\n", retained, autoreleased);
    holder.own = value;
    id copy = holder.own;
    printf("another %d, copied %d\n", copy != value, copied);
    holder.own = nil;
    printf("released %d, none %d\n", released, holder.own == nil);
    holder.loose = value;
    printf("loose %d\n", holder.loose == value);
    holder.pair = (struct pair){3, 4};
    holder.plain = 5;
    printf("pair %ld %ld, plain %d\n", holder.pair.first, holder.pair.second, holder.plain);
    int before = retained;
    ptrdiff_t offset = ivar_getOffset(class_getInstanceVariable([holder class], "kept"));
    bool is_read = objc_getProperty(holder, @selector(kept), offset, 0) == value;
    printf("read as it is %d, retained %d, of nil %d\n", is_read, retained - before,
           objc_getProperty(nil, @selector(kept), offset, 1) != nil);
    objc_setProperty(holder, @selector(kept), offset, nil, 0, 0);
    objc_setProperty(nil, @selector(kept), offset, value, 1, 0);
    objc_setProperty(holder, @selector(own), offset, value, 1, 2);
    printf("copied to be changed %d\n", changeable);
    unsigned int count = 9;
    bool some = class_copyPropertyList([holder class], &count) != NULL;
    printf("listed %d, %d, %u\n", class_getProperty([holder class], "kept") != NULL, some, count);
    object_dispose(copy);
    object_dispose(value);
    object_dispose(holder);
    return 0;
}
