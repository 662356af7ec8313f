/* for .. in: over a collection, and over one that changes meanwhile. */
#include "roots.h"
#include <stdio.h>
#include <stdlib.h>

@interface Row : Object { id members[3]; unsigned long changes; }
- (unsigned long)countByEnumeratingWithState:(struct __objcFastEnumerationState *)state
                                     objects:(id *)objects
                                       count:(unsigned long)room;
- (void)put:(id)member at:(int)place;
@end
@implementation Row
- (unsigned long)countByEnumeratingWithState:(struct __objcFastEnumerationState *)state
                                     objects:(id *)objects
                                       count:(unsigned long)room
{
    if (state->state) return 0;
    state->state = 1;
    state->itemsPtr = members;
    state->mutationsPtr = &changes;
    return 3;
}
- (void)put:(id)member at:(int)place { members[place] = member; changes++; }
@end

static void at_mutation(id collection)
{
    printf("%s changed\n", object_getClassName(collection));
    fflush(stdout);
    exit(0);
}

int main(void)
{
    Row *row = (Row *)class_createInstance(objc_getClass("Row"), 0);
    [row put:@"one" at:0];
    [row put:@"two" at:1];
    [row put:@"three" at:2];
    for (NXConstantString *text in row) printf("%s\n", [text cString]);
    objc_setEnumerationMutationHandler(at_mutation);
    for (NXConstantString *text in row) [row put:text at:2];
    return 1;
}
