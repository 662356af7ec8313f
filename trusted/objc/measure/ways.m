/* Lookups by GCC's libobjc, beside crates/msg_bench: the same selectors of the same classes in the
 * same order. Of tools/measure/ways, which writes the two files that stand in quotes. */
#include <objc/message.h>
#include <objc/runtime.h>
#include <stdio.h>
#include <stdlib.h>
#include <string.h>
__attribute__((objc_root_class)) @interface C0 { Class isa; } @end
@implementation C0
+ (void)initialize {}
#include "methods.h"
@end
#include "classes.h"
static unsigned long state = 88172645463325252ul;
static unsigned long draw(void) { state ^= state << 13; state ^= state >> 7; state ^= state << 17; return state; }
static int drawn(const int *all, int count, int one) { for (int at = 0; at < count; at++) if (all[at] == one) return 1; return 0; }
int main(int count, char **words) {
    int classes = strcmp(words[1], "mono") ? 32 : 1, each = classes == 1 ? 1 : 24;
    static int entries[32][24];
    static id receivers[4096];
    static SEL selectors[4096];
    for (int class = 0; class < classes; class++) {
        int found = 0;
        while (found < each) {
            int one = 1 + draw() % 255;
            if (drawn(entries[class], found, one)) continue;
            entries[class][found++] = one;
            draw();
        }
    }
    for (int at = 0; at < 4096; at++) {
        char name[16];
        int class = draw() % classes, one = entries[class][draw() % each];
        snprintf(name, sizeof name, "C%d", class);
        receivers[at] = class_createInstance(objc_getClass(name), 0);
        snprintf(name, sizeof name, "s%d", one > 1 ? one - 1 : 1);
        selectors[at] = sel_registerName(name);
        objc_msg_lookup(receivers[at], selectors[at])(receivers[at], selectors[at]);
    }
    unsigned long lookups = strtoul(words[2], 0, 10), sum = 0;
    for (unsigned long at = 0; at < lookups; at++) sum += (unsigned long)objc_msg_lookup(receivers[at % 4096], selectors[at % 4096]);
    printf("%lu\n", sum);
    return 0;
}
