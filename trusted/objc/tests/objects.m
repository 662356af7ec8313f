/* Objects: copied, of another class, disposed of; classes by name, with the program's handler;
 * versions; super in class methods, also a category's; nil; memory. */
#include "roots.h"
#include <malloc.h>
#include <stdio.h>
#include <string.h>

@interface Cup : Object { @public int full; }
- (int)full;
+ (const char *)called;
@end
@implementation Cup
- (int)full { return full; }
+ (const char *)called { return "cup"; }
@end
@interface Mug : Cup
@end
@implementation Mug
- (int)full { return -full; }
+ (const char *)called { return strcmp([super called], "cup") ? "?" : "mug"; }
@end
@interface Mug (Super)
+ (const char *)calledAbove;
- (int)fullAbove;
@end
@implementation Mug (Super)
+ (const char *)calledAbove { return [super called]; }
- (int)fullAbove { return [super full]; }
@end

static void tell_memory(void)
{
    enum { SIZE = 3000 };
    char *all[] = {objc_malloc(SIZE), objc_atomic_malloc(SIZE), objc_calloc(3, SIZE / 3)};
    int zeros = 1;
    for (int i = 0; i < SIZE; i++) zeros = zeros && !all[2][i];
    printf("zeros %d, as large as asked for", zeros);
    for (int i = 0; i < 3; i++) {
        printf(" %d", malloc_usable_size(all[i]) >= SIZE);
        memset(all[i], 7, SIZE);
        all[i] = objc_realloc(all[i], 2 * SIZE);
        printf(" %d", malloc_usable_size(all[i]) >= 2 * SIZE && all[i][SIZE - 1] == 7);
        objc_free(all[i]);
    }
    void *least[] = {objc_malloc(0), objc_calloc(0, 1)};
    printf(", of nothing %d\n", least[0] && least[1]);
    for (int i = 0; i < 2; i++) objc_free(least[i]);
}

static Class handler(const char *name)
{
    return objc_lookUpClass(strcmp(name, "Glass") ? "none" : "Cup");
}

int main(void)
{
    Cup *cup = (Cup *)class_createInstance(objc_getClass("Cup"), 8), *none = nil;
    cup->full = 3;
    strcpy(object_getIndexedIvars(cup), "behind");
    Cup *copy = (Cup *)object_copy(cup, 8);
    printf("copy %d, %s, another %d\n", [copy full], (char *)object_getIndexedIvars(copy),
           copy != cup);
    printf("was %s, ", class_getName(object_setClass(cup, objc_getClass("Mug"))));
    printf("now %d, above %d\n", [cup full], [(Mug *)cup fullAbove]);
    printf("%s %s, above %s\n", [Cup called], [Mug called], [Mug calledAbove]);
    printf("as compiled code asks: %d %d %d\n", objc_get_class("Cup") == objc_getClass("Cup"),
           objc_get_meta_class("Cup") == objc_getMetaClass("Cup"),
           objc_lookup_class("Cup") == objc_getClass("Cup"));
    printf("of nil: %d %s %d %d\n", [none full], object_getClassName(nil),
           object_copy(nil, 0) == nil, object_dispose(nil) == nil);
    printf("unknown %d, ", objc_getClass("Glass") == NULL);
    objc_setGetUnknownClassHandler(handler);
    printf("by the handler %s, looked up %d, its metaclass %d\n",
           class_getName(objc_getClass("Glass")), objc_lookUpClass("Glass") == NULL,
           objc_getMetaClass("Cup") == ((id)objc_getRequiredClass("Cup"))->isa);
    class_setVersion(objc_getClass("Cup"), 4);
    printf("version %d, of another %d\n", class_getVersion(objc_getClass("Cup")),
           class_getVersion(objc_getClass("Mug")));
    printf("disposed of %d %d\n", object_dispose(cup) == nil, object_dispose(copy) == nil);
    tell_memory();
    return 0;
}
