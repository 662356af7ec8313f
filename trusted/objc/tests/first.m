/* What comes before a class's first message: +initialize before a resolver, also one that
 * throws, and of a class whose method was replaced before. What was initialized answers other
 * threads also while another class's +initialize runs. */
#include "roots.h"
#include <pthread.h>
#include <stdio.h>
#include <unistd.h>

__attribute__((objc_root_class)) @interface Base { Class isa; }
+ (int)value;
@end
static int of_base;
@implementation Base
+ (void)initialize { of_base++; }
+ (int)value { return 1; }
@end

static const char *order[8];
static int steps;

static int late(id self, SEL sel) { return 4; }

#define ASKED(name) \
    @interface name : Base \
    @end \
    @implementation name \
    + (void)initialize { order[steps++] = "initialized"; } \
    + (BOOL)resolveInstanceMethod:(SEL)sel { order[steps++] = "resolver"; return 0; } \
    + (BOOL)resolveClassMethod:(SEL)sel { order[steps++] = "class resolver"; return 0; } \
    @end
ASKED(Responding)
ASKED(Getting)
ASKED(GettingClass)
ASKED(Implementing)
ASKED(Knowing)
@interface Knowing (Own)
- (int)own;
@end
@implementation Knowing (Own)
- (int)own { return 3; }
@end

@interface Throwing : Base
@end
static int thrown;
@implementation Throwing
+ (void)initialize { thrown++; @throw (id)objc_getClass("Base"); }
@end
@interface BelowThrowing : Throwing
@end
static int of_below;
@implementation BelowThrowing
+ (void)initialize { of_below++; }
@end

@interface Replaced : Base
+ (int)own;
@end
static int of_replaced;
@implementation Replaced
+ (void)initialize { of_replaced++; }
+ (int)own { return 5; }
@end

enum { MOMENT = 1000, MOMENTS = 20000 };

static int asked;

static void *ask_base(void *none)
{
    int is = class_respondsToSelector(objc_getMetaClass("Base"), sel_registerName("unheard"));
    is = is || class_getClassMethod(objc_getClass("Base"), sel_registerName("unheard too"));
    __atomic_store_n(&asked, is ? -1 : 1, __ATOMIC_SEQ_CST);
    return none;
}

@interface Slow : Base
@end
static pthread_t beside;
static int meanwhile;
@implementation Slow
+ (void)initialize
{
    pthread_create(&beside, NULL, ask_base, NULL);
    for (int i = 0; i < MOMENTS && !__atomic_load_n(&asked, __ATOMIC_SEQ_CST); i++) usleep(MOMENT);
    meanwhile = __atomic_load_n(&asked, __ATOMIC_SEQ_CST);
}
@end

static void tell(const char *what)
{
    printf("%s:", what);
    for (int i = 0; i < steps; i++) printf(" %s", order[i]);
    printf("\n");
    steps = 0;
}

static void *send_throwing(void *answer)
{
    *(int *)answer = [Throwing value];
    return NULL;
}

static int try_it(int (*send)(void))
{
    @try { return send(); }
    @catch (id) { return -1; }
}

static int send_to_throwing(void) { return [Throwing value]; }
static int send_below(void) { return [BelowThrowing value]; }

static int has_key(Class class_) { return ((struct objc_class *)(void *)class_)->key != 0; }

int main(void)
{
    SEL none = sel_registerName("none");
    class_respondsToSelector(objc_getClass("Responding"), none);
    tell("class_respondsToSelector");
    class_getInstanceMethod(objc_getClass("Getting"), none);
    tell("class_getInstanceMethod");
    class_getClassMethod(objc_getClass("GettingClass"), none);
    tell("class_getClassMethod");
    class_getMethodImplementation(objc_getClass("Implementing"), none);
    tell("class_getMethodImplementation");
    class_getInstanceMethod(objc_getClass("Knowing"), @selector(own));
    tell("class_getInstanceMethod of one that is there");

    int before = try_it(send_below), again = try_it(send_below), answer = 0;
    printf("below one that throws: %d %d, initialized %d\n", before, again, of_below);
    pthread_t thread;
    pthread_create(&thread, NULL, send_throwing, &answer);
    pthread_join(thread, NULL);
    again = try_it(send_to_throwing);
    printf("after it threw: %d %d, thrown %d\n", again, answer, thrown);
    printf("as fast as others: %d\n",
           has_key(objc_getClass("Throwing")) && has_key(objc_getMetaClass("Throwing")));

    class_replaceMethod(objc_getMetaClass("Replaced"), @selector(own), (IMP)late, "i16@0:8");
    answer = [Replaced own];
    printf("replaced before: %d, initialized %d, Base %d\n", answer, of_replaced, of_base);
    answer = [Slow value];
    pthread_join(beside, NULL);
    printf("while another is initialized: asked %d, sent %d\n", meanwhile, answer);
    return 0;
}
