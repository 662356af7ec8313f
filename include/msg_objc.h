/* What the shim of Objective-C's runtime has and GCC's libobjc hasn't: methods
 * of several classes that are changed at once, or looked up at once. Include
 * <objc/runtime.h> first. TRUSTED, as all of trusted/objc/.
 *
 * Once any message has been answered by one of the methods as it becomes, no
 * message of any thread is answered by another of them as it was. (A thread
 * that sends two messages may have the change come between them.) A handler of
 * a signal that interrupts a send or change of its own thread may see them one
 * by one. So may a thread whose send finds no note while the change's thread is
 * held up: after about a second it waits no longer. */
#ifndef MSG_OBJC_H
#define MSG_OBJC_H

#include <stddef.h>

#ifdef __cplusplus
extern "C" {
#endif

/* A method as it is to be. A class's own methods are given by its metaclass.
 * `types` may be NULL if the class has the method or inherits it. */
struct objc_method_swap {
    Class class_;
    SEL sel;
    IMP imp;
    const char *types;
};
struct objc_method_pair {
    Method one, other;
};
struct objc_method_lookup {
    Class class_;
    SEL sel;
    IMP imp;
};

/* class_replaceMethod of each row, and all of them at once. Returns `count`.
 * `imp` of each row is then what the class's objects were answered by before,
 * so the same call with the same rows takes it back. (A method that the class
 * only inherited it then has as its own. NULL if nobody had it: of that there
 * is no way back.)
 *
 * Faults: nothing has changed, and the place is returned of the first row that
 * can't be: without a class that is registered, a selector or an
 * implementation; without types, or with empty ones, if nobody has the method;
 * that names what a row before it does. A place below `count` comes also if
 * there is no memory. */
size_t objc_replace_methods(struct objc_method_swap *rows, size_t count);
/* method_exchangeImplementations of each pair, one after another, and all of
 * them at once; so the same call with the pairs in reverse order takes it back.
 * Returns `count`.
 *
 * Faults: nothing has changed, and the place is returned of the first pair that
 * can't be: a method that is NULL or stands in no class that is registered. */
size_t objc_exchange_methods(const struct objc_method_pair *pairs,
                             size_t count);
/* Looks up each row's selector in its class, or a class method if the row names
 * the metaclass, all at once: methods that one call above replaced are found
 * all as they were, or all as they became. Sets `imp` of each row, to NULL if
 * there is no method, and returns `count`. It sends no message, not even
 * +initialize, and it calls malloc.
 *
 * Faults: the place is returned of the first row without a registered class or
 * a selector; or 0, in a handler of a signal that interrupted a change of its
 * own thread. */
size_t objc_lookup_methods(struct objc_method_lookup *rows, size_t count);

#ifdef __cplusplus
}
#endif
#endif
