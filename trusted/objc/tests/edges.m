/* Odd inputs, which libobjc refuses: a class in construction whose variables may yet move, objects
 * that are no protocols, empty types and names, negative counts, and nothing at all; and what ends
 * a program. */
#include "roots.h"
#include <signal.h>
#include <stdio.h>
#include <stdlib.h>
#include <sys/wait.h>
#include <unistd.h>

@protocol Known
- (void)known;
@end
__attribute__((objc_root_class)) @interface Base <Known> { Class isa; int first; }
- (int)value;
@end
@implementation Base
- (int)value { return 1; }
- (void)known {}
@end

static int two(id self, SEL sel) { return 2; }
static int three(id self, SEL sel) { return 3; }

static void add_methods(Class base)
{
    SEL value = @selector(value), none = sel_registerName("none");
    printf("empty types: %d %d", class_addMethod(base, none, (IMP)two, ""),
           class_addMethod(base, none, (IMP)two, NULL));
    int replaced = class_replaceMethod(base, none, (IMP)two, "") != NULL;
    printf(", replaced %d, there %d\n", replaced, class_getInstanceMethod(base, none) != NULL);
    IMP before = class_replaceMethod(base, value, (IMP)two, "");
    Base *object = (Base *)class_createInstance(base, 0);
    printf("of one that stands: %d, sent %d\n", before != NULL, [object value]);
    object_dispose((id)object);
    Class heir = objc_allocateClassPair(base, "Heir", 0);
    objc_registerClassPair(heir);
    class_replaceMethod(heir, value, (IMP)three, "");
    object = (Base *)class_createInstance(heir, 0);
    printf("of one that is inherited: sent %d\n", [object value]);
    object_dispose((id)object);
}

static void add_variables(Class base)
{
    Class class_ = objc_allocateClassPair(base, "Made", 0);
    printf("a variable without a name: %d\n", class_addIvar(class_, "", 4, 2, "i"));
    int added = class_addIvar(class_, "second", 4, 2, "i"),
        again = class_addIvar(class_, "second", 4, 2, "i");
    printf("with one: %d, again %d, of the class above %d\n", added, again,
           class_addIvar(class_, "first", 4, 2, "i"));
    printf("in construction: %d", class_getInstanceVariable(class_, "second") != NULL);
    printf(" %d", class_copyIvarList(class_, NULL) != NULL);
    objc_registerClassPair(class_);
    Ivar second = class_getInstanceVariable(class_, "second");
    printf(", then %d, first %d\n", second != NULL,
           class_getInstanceVariable(class_, "first") != NULL);
}

static void ask_protocols(Class base)
{
    Protocol *known = @protocol(Known), *none = (Protocol *)base;
    unsigned int count = 7;
    printf("no protocol: %d %d", class_addProtocol(base, none),
           class_conformsToProtocol(base, none));
    printf(" %d %d", protocol_conformsToProtocol(known, none),
           protocol_conformsToProtocol(none, known));
    printf(" %d", protocol_copyProtocolList(none, &count) != NULL);
    printf(" %u", count);
    printf(" %d", protocol_copyMethodDescriptionList(none, 1, 1, &count) != NULL);
    printf(" %u", count);
    printf(" %d\n", protocol_getMethodDescription(none, @selector(known), 1, 1).name.sel != NULL);
    printf("a protocol: %d %d", class_conformsToProtocol(base, known),
           protocol_conformsToProtocol(known, known));
    printf(" %d\n", protocol_getMethodDescription(known, @selector(known), 1, 1).name.sel != NULL);
}

/* What answers something else than 0 is told. */
#define NONE(call) \
    if (call) printf("%s\n", #call)

static void ask_for_none(Class base, SEL value)
{
    unsigned int counts[4] = {1, 1, 1, 1};
    Method method = class_getInstanceMethod(base, value);
    Ivar first = class_getInstanceVariable(base, "first");
    NONE(class_getInstanceMethod(NULL, value) || class_getInstanceMethod(base, NULL));
    NONE(class_getClassMethod(NULL, value) || class_getClassMethod(base, NULL));
    NONE(class_getMethodImplementation(NULL, value) || class_getMethodImplementation(base, NULL));
    NONE(class_respondsToSelector(NULL, value) || class_respondsToSelector(base, NULL));
    NONE(class_addMethod(NULL, value, (IMP)two, "i16@0:8"));
    NONE(class_addMethod(base, sel_registerName("none"), NULL, "i16@0:8"));
    NONE(class_replaceMethod(base, value, NULL, "i16@0:8"));
    NONE(method_setImplementation(NULL, (IMP)two) || method_setImplementation(method, NULL));
    method_exchangeImplementations(NULL, method);
    method_exchangeImplementations(method, NULL);
    NONE(method_getImplementation(method) != (IMP)two);
    NONE(method_getNumberOfArguments(NULL) || method_getTypeEncoding(NULL));
    NONE(method_getDescription(NULL) || method_getImplementation(NULL));
    NONE(objc_lookUpClass(NULL) || objc_getClass(NULL) || objc_getMetaClass("Nowhere"));
    NONE(class_getSuperclass(NULL) || class_isMetaClass(NULL) || class_getInstanceSize(NULL));
    class_setVersion(NULL, 1);
    NONE(class_getVersion(NULL) || class_createInstance(NULL, 0));
    NONE(class_createInstance(base->isa, 0) || objc_allocateClassPair(base, NULL, 0));
    NONE(class_getInstanceVariable(NULL, "first") || class_getInstanceVariable(base, NULL));
    NONE(object_getInstanceVariable(nil, "first", NULL) || object_getIndexedIvars(nil));
    NONE(object_setInstanceVariable(nil, "first", NULL) || object_setClass(nil, base));
    NONE(object_getIvar(nil, first) || object_getIvar((id)base, NULL));
    NONE(ivar_getName(NULL) || ivar_getOffset(NULL) || ivar_getTypeEncoding(NULL));
    NONE(class_conformsToProtocol(NULL, @protocol(Known)) || class_conformsToProtocol(base, nil));
    NONE(class_addProtocol(NULL, @protocol(Known)) || class_addProtocol(base, nil));
    NONE(sel_getTypedSelector(NULL) || objc_getProtocol(NULL) || sel_registerTypedName(NULL, "i"));
    NONE(class_copyMethodList(NULL, &counts[0]) || class_copyIvarList(NULL, &counts[1]));
    NONE(class_copyProtocolList(NULL, &counts[2]) || sel_copyTypedSelectorList(NULL, &counts[3]));
    NONE(counts[0] + counts[1] + counts[2] + counts[3]);
    NONE(protocol_getMethodDescription(@protocol(Known), NULL, 1, 1).types);
    NONE(protocol_getMethodDescription(@protocol(Known), @selector(known), 1, 0).types);
    NONE(protocol_isEqual(@protocol(Known), nil) || protocol_isEqual(nil, @protocol(Known)));
    NONE(!protocol_isEqual(nil, nil));
    object_setIvar(nil, first, nil);
    object_setIvar((id)base, NULL, nil);
    objc_registerClassPair(NULL);
    objc_disposeClassPair(NULL);
    struct objc_super nobody = {nil, base};
    NONE(objc_msg_lookup_super(&nobody, value)(nil, value));
    printf("of nothing there is nothing\n");
}

static void require_none(void) { objc_getRequiredClass("Nowhere"); }
static void change_collection(void) { objc_enumerationMutation(nil); }
static void throw_none(void) { objc_exception_throw(nil); }
static void send_unknown(void)
{
    id object = class_createInstance(objc_getClass("Base"), 0);
    objc_msg_lookup(object, sel_registerName("unknown"))(object, sel_registerName("unknown"));
}

static int ends(void (*call)(void))
{
    int status = 0;
    pid_t child = fork();
    if (!child) {
        close(2);
        call();
        _exit(0);
    }
    waitpid(child, &status, 0);
    return WIFSIGNALED(status) && WTERMSIG(status) == SIGABRT;
}

int main(void)
{
    Class base = objc_getClass("Base"), list[2] = {NULL, NULL};
    add_methods(base);
    add_variables(base);
    ask_protocols(base);
    ask_for_none(base, @selector(value));
    int none = objc_getClassList(list, 0), less = objc_getClassList(list, -1),
        one = objc_getClassList(list, 1);
    printf("classes: %d %d %d, written %d %d", none, less, one, list[0] != NULL, list[1] != NULL);
    printf(", of all %d\n", objc_getClassList(NULL, -1) > 3);
    fflush(stdout);
    printf("what can't go on ends: %d %d %d %d\n", ends(require_none), ends(change_collection),
           ends(throw_none), ends(send_unknown));
    return 0;
}
