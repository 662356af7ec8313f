/* Constant strings: their class reference is filled in before +load, and they answer. */
#include "roots.h"
#include <stdio.h>

@interface Early : Object
@end
@implementation Early
+ (void)load { printf("while loading: %s\n", [@"early" cString]); }
@end

int main(void)
{
    NXConstantString *text = @"several words";
    printf("%s, %u, %s\n", [text cString], [text length], object_getClassName(text));
    printf("itself %d, another %d\n", [text isEqual:text], [text isEqual:@"another"]);
    printf("class %s under %s\n", class_getName([text class]),
           class_getName(class_getSuperclass([text class])));
    return 0;
}
