/* Classes, functions and names until there is no room: a class is refused; a function or a name for
 * which no number is left ends the program with a line, in each way; what was there before is
 * right. */
#include "calls.h"
#include "msg_objc.h"
#include <signal.h>
#include <stdio.h>
#include <string.h>
#include <sys/wait.h>
#include <unistd.h>

enum { MOST = 1200000 };

static id answer(id self, SEL sel, ...) { (void)sel; return self; }

/* So many different functions as are wanted: nobody calls them. */
static IMP function(int number)
{
    return (IMP)(void (*)(void))((uintptr_t)answer + (uintptr_t)number);
}

static int is_answered(Class class_, SEL sel) { return objc_msg_lookup((id)class_, sel) == answer; }

static int fill_classes(Class above)
{
    char name[32];
    for (int i = 0; i < MOST; i++) {
        snprintf(name, sizeof name, "Class%d", i);
        Class class_ = objc_allocateClassPair(above, name, 0);
        if (!class_) return i;
        objc_registerClassPair(class_);
        if (objc_getClass(name) != class_) return -1;
    }
    return MOST;
}

/* Many methods of one function; and then a class that has many of its own. */
static int share(Class above)
{
    char name[32];
    for (int i = 0; i < 5000; i++) {
        snprintf(name, sizeof name, "Shared%d", i / 500);
        Class class_ = i % 500 ? objc_getClass(name) : objc_allocateClassPair(above, name, 0);
        if (i % 500 == 0) objc_registerClassPair(class_);
        snprintf(name, sizeof name, "method%d", i % 500);
        if (!class_addMethod(class_, sel_registerName(name), answer, "v16@0:8")) return 0;
    }
    Class large = objc_allocateClassPair(above, "Large", 0);
    for (int i = 0; i < 300; i++) {
        snprintf(name, sizeof name, "method%d", i);
        class_addMethod(large->isa, sel_registerName(name), i ? function(-1000 - i) : answer,
                        "v16@0:8");
    }
    objc_registerClassPair(large);
    return objc_getClass("Large") == large && is_answered(large, sel_registerName("method0"));
}

static int was_refused(int count) { return count > 500 && count < MOST; }

/* Each way to a function that is new: of the class's own methods, or of a class in construction. */
static Class of;
static SEL known, many;

static void replaces(int i) { class_replaceMethod(of->isa, many, function(i), "v16@0:8"); }
static void sets(int i) { method_setImplementation(class_getClassMethod(of, many), function(i)); }
static void names(int i)
{
    char name[32];
    snprintf(name, sizeof name, "name%d", i);
    if (!sel_registerName(name)) _exit(1);
}
static void adds(int i)
{
    Class fresh = objc_allocateClassPair(of, "Fresh", 0);
    for (int k = 0; k < 64; k++) {
        char name[32];
        snprintf(name, sizeof name, "method%d", k);
        class_addMethod(fresh, sel_registerName(name), function(64 * i + k), "v16@0:8");
    }
    objc_disposeClassPair(fresh);
}
static void replaces_both(int i)
{
    struct objc_method_swap both[] = {{of->isa, many, function(i), NULL},
                                      {of->isa, known, answer, NULL}};
    if (objc_replace_methods(both, 2) != 2) _exit(1);
}

/* Whether the program ends in this way, with this line and no other. */
static int ends(void (*fill)(int), const char *line)
{
    int ends[2], status;
    char told[200] = "";
    if (pipe(ends) || fflush(stdout)) return -1;
    pid_t child = fork();
    if (!child) {
        dup2(ends[1], 2);
        for (int i = 1; i < MOST; i++) fill(i);
        _exit(0);
    }
    close(ends[1]);
    ssize_t length = read(ends[0], told, sizeof told - 1);
    waitpid(child, &status, 0);
    close(ends[0]);
    return length > 0 && !strncmp(told, line, strlen(line)) && WIFSIGNALED(status) &&
           WTERMSIG(status) == SIGABRT;
}

int main(void)
{
    known = sel_registerName("known");
    many = sel_registerName("many");
    Class root = objc_allocateClassPair(NULL, "Root", 0), late;
    class_addMethod(root->isa, known, answer, "@16@0:8");
    objc_registerClassPair(root);
    printf("before: %d\n", is_answered(root, known));
    late = objc_allocateClassPair(root, "Late", 0);
    class_addMethod(late->isa, many, answer, "@16@0:8");
    for (int i = 0; i < 100; i++) {
        char name[32];
        snprintf(name, sizeof name, "late%d", i);
        class_addMethod(late->isa, sel_registerName(name), i ? function(-i) : answer, "v16@0:8");
    }

    int taken =
        class_addIvar(late, "wide", SIZE_MAX, 3, "c") + class_addIvar(late, "aligned", 1, 255, "c");
    int made =
        objc_allocateClassPair(root, "Large", SIZE_MAX) || class_createInstance(root, SIZE_MAX);
    printf("too large: %d %d\n", taken, made);
    Class spare = objc_allocateClassPair(root, "Spare", 0);
    printf("functions that are shared: %d\n", share(root));
    printf("classes refused: %d\n", was_refused(fill_classes(root)));
    objc_registerClassPair(late);
    printf("a class that waited: %d %d\n", objc_getClass("Late") == late,
           is_answered(late, sel_registerName("late0")));
    /* a class without subclasses: a change costs by what is below */
    of = late;
    objc_disposeClassPair(spare);
    static const char line[] = "objc: no number is left for an implementation: ";
    printf("without a number for a function: %d %d\n", ends(replaces, line), ends(sets, line));
    printf("of several, or a new one: %d %d\n", ends(replaces_both, line), ends(adds, line));
    printf("without a number for a name: %d\n",
           ends(names, "objc: no number is left for a selector: name"));
    int added = class_addMethod(root, known, answer, "@16@0:8");
    printf("one that is known can be added: %d\n",
           added && class_getMethodImplementation(root, known) == answer);
    printf("known ones are found: %d %d\n", sel_isEqual(sel_registerName("known"), known),
           is_answered(root, known));
    SEL other = sel_registerName("name0");
    printf("after: %d %d\n", class_respondsToSelector(root, known),
           class_respondsToSelector(root, other));
    return 0;
}
