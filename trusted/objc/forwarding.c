/* What is called where no method is found: a program's hook, the receiver's forward::, its
 * doesNotRecognize:, or the end. forward:: is given the arguments' registers and memory as
 * __builtin_apply_args makes them, and answers a result as __builtin_apply does (GCC's manual,
 * Constructing Calls). Trusted: that the result of forward:: is returned where the message's is
 * sought. */
#include "shim.h"

enum { MOST_IN_REGISTERS = 16 };

/* Its result is returned in memory, so the receiver stands where that of such a method does. */
struct large {
    char bytes[MOST_IN_REGISTERS + 1];
};

typedef void *(*forwarder)(id, SEL, SEL, void *);

IMP (*__objc_msg_forward)(SEL);
IMP (*__objc_msg_forward2)(id, SEL);

static IMP own_method(id self, int own)
{
    return self ? shim_look(shim_class_of(self), &shim_own[own]) : NULL;
}

static void *forward(id self, SEL sel, void *frame)
{
    forwarder forwards = (forwarder)(void (*)(void))own_method(self, FORWARD);
    if (forwards) return forwards(self, &shim_own[FORWARD], sel, frame);
    IMP imp = own_method(self, NOT_RECOGNIZED);
    if (!imp) shim_stop("unrecognized selector", sel_getName(sel));
    imp(self, &shim_own[NOT_RECOGNIZED], sel);
    return NULL;
}

#ifdef __clang__ /* it has neither: forward:: gets no arguments, and its result is lost */
#define __builtin_apply_args() NULL
#define __builtin_return(result) ((void)(result))
#endif

#define FORWARDER(name, type, nothing) \
    static type name(id self, SEL sel, ...) \
    { \
        void *result = forward(self, sel, __builtin_apply_args()); \
        if (result) __builtin_return(result); \
        return nothing; \
    }
FORWARDER(forward_word, id, NULL)
FORWARDER(forward_large, struct large, (struct large){{0}})
FORWARDER(forward_double, double, 0)

static IMP by_types(const char *types)
{
    types = types ? objc_skip_type_qualifiers(types) : "";
    bool is_made_of_parts = *types == '{' || *types == '(' || *types == '[';
    if (is_made_of_parts && objc_sizeof_type(types) > MOST_IN_REGISTERS)
        return (IMP)(void (*)(void))forward_large;
    if (*types == 'f' || *types == 'd') return (IMP)(void (*)(void))forward_double;
    return forward_word;
}

IMP shim_forward(id receiver, SEL sel)
{
    IMP (*both)(id, SEL) = LOAD(__objc_msg_forward2);
    IMP imp = both ? both(receiver, sel) : NULL;
    if (imp) return imp;
    IMP (*one)(SEL) = LOAD(__objc_msg_forward);
    imp = one ? one(sel) : NULL;
    return imp ? imp : by_types(sel->types);
}
