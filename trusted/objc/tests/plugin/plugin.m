/* A plug-in in Objective-C, which brings libobjc.so.4 with it into a program in C. */
#include "../roots.h"

__attribute__((objc_root_class)) @interface PlugRoot { Class isa; }
+ (int)value;
@end
static int loaded;
@implementation PlugRoot
+ (void)load { loaded = 1; }
+ (int)value { return 40 + loaded; }
@end

int plug(void) { return [PlugRoot value]; }

int plug_throw(void)
{
    @try { @throw (id)objc_get_class("PlugRoot"); }
    @catch (id caught) { return caught == (id)objc_get_class("PlugRoot"); }
    return 0;
}
