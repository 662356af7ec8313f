/* @try, @catch by class, @finally, thrown again, through frames, out of +initialize and past what
 * is to be cleaned up, disposed of or changed there, a matcher of the program's, and one that
 * nobody catches. */
#include "roots.h"
#include <stdio.h>
#include <stdlib.h>

@interface Trouble : Object
@end
@implementation Trouble
@end
@interface Deep : Trouble
@end
@implementation Deep
@end
@interface Other : Object
@end
@implementation Other
@end
@interface Late : Object
+ (int)value;
@end
@implementation Late
+ (void)initialize { @throw class_createInstance(objc_getClass("Other"), 0); }
+ (int)value { return 7; }
@end

static id new(const char *name) { return class_createInstance(objc_getClass(name), 0); }

static void throw_deep(int depth)
{
    @try {
        if (depth) throw_deep(depth - 1);
        else @throw new("Deep");
    } @finally {
        printf("left %d\n", depth);
    }
}

static const char *caught_by(id object)
{
    const char *by = "nobody";
    @try {
        @try { @throw object; }
        @catch (Deep *deep) { by = "Deep"; object_dispose(deep); }
        @catch (Trouble *trouble) { by = "Trouble"; @throw; }
        @finally { printf("finally, "); }
    }
    @catch (Trouble *again) { by = "Trouble again"; object_dispose(again); }
    @catch (id any) { by = "any"; object_dispose(any); }
    return by;
}

static int cleaned;
static void clean(int *unused) { cleaned++; }

/* A frame with a handler that doesn't take it, and what is cleaned up. */
static __attribute__((noinline)) void throw_past(id object)
{
    @try {
        int kept __attribute__((cleanup(clean))) = 0;
        @throw object;
    }
    @catch (Deep *deep) { printf("not for Deep\n"); }
}

static __attribute__((noinline)) void throw_it(id object) { @throw object; }

static void throw_disposed(id object)
{
    @try { throw_it(object); }
    @finally { object_dispose(object); }
}

static void throw_changed(id object)
{
    @try { throw_it(object); }
    @finally { object_setClass(object, objc_getClass("Other")); }
}

static int asked;
static int matches_all(Class class_, id object) { return ++asked; }

static void at_end(id object)
{
    printf("uncaught %s\n", object_getClassName(object));
    fflush(stdout);
    exit(0);
}

int main(void)
{
    @try {
        throw_deep(2);
    } @catch (Trouble *trouble) {
        printf("caught a %s\n", object_getClassName(trouble));
        object_dispose(trouble);
    }
    printf("%s\n", caught_by(new("Deep")));
    printf("%s\n", caught_by(new("Trouble")));
    printf("%s\n", caught_by(new("Other")));
    printf("%s\n", caught_by(nil));
    @try {
        throw_past(new("Other"));
    } @catch (Other *other) {
        printf("cleaned up %d\n", cleaned);
        object_dispose(other);
    }
    @try {
        [Late value];
    } @catch (Other *other) {
        printf("out of +initialize, then %d\n", [Late value]);
        object_dispose(other);
    }
    @try {
        throw_disposed(new("Deep"));
    } @catch (Trouble *gone) {
        printf("caught what is gone\n");
    }
    @try {
        @try { throw_changed(new("Deep")); }
        @catch (Deep *deep) { printf("caught a Deep, by now %s\n", object_getClassName(deep)); }
    } @catch (Other *other) {
        printf("caught as another\n");
    }
    objc_exception_matcher before = objc_setExceptionMatcher(matches_all);
    printf("%s, by the program's matcher", caught_by(new("Other")));
    printf(", asked %d times\n", asked);
    objc_setExceptionMatcher(before);
    objc_setUncaughtExceptionHandler(at_end);
    @throw new("Deep");
}
