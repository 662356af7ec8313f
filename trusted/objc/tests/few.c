/* Where few class numbers are left: what has none is refused, or not found by its name; the rest
 * goes on. A MSG_CLASSES of less than the default, as one of 1, is the default; one of more allows
 * as many. */
#include "modules.h"
#include <stdlib.h>
#include <unistd.h>

static struct objc_class late_meta = {.name = "Late", .info = 2, .instance_size = 104};
static struct objc_class late = {
    .isa = &late_meta, .superclass.text = "Root", .name = "Late", .info = 1, .instance_size = 8};
static struct {
    unsigned long ref_count;
    struct objc_selector *refs;
    uint16_t class_count, category_count;
    void *defs[2];
} late_symbols = {0, NULL, 1, 0, {&late, NULL}};
static struct {
    unsigned long ref_count;
    struct objc_selector *refs;
    uint16_t class_count, category_count;
    void *defs[1];
} no_symbols;
static struct module late_module = {8, sizeof late_module, "a late one",
                                    (struct symbols *)&late_symbols};
static struct module empty_module = {8, sizeof empty_module, "one of nothing",
                                     (struct symbols *)&no_symbols};

static Class make(const char *name)
{
    Class class_ = objc_allocateClassPair(&child, name, 0);
    objc_registerClassPair(class_);
    return class_;
}

enum { MORE = 20000 };

static void make_many(int many)
{
    for (int i = 0; i < many; i++) {
        char name[32];
        snprintf(name, sizeof name, "Many%d", i);
        if (!make(name)) printf("%s is refused\n", name);
    }
}

static void run_again(char **words, const char *classes)
{
    fflush(stdout);
    setenv("MSG_CLASSES", classes, 1);
    execv("/proc/self/exe", words);
}

/* Of 16,384 numbers 0 is nobody's, 3 are the shim's own classes', 2 the module's, and 2 are
 * left. */
int main(int count, char **words)
{
    (void)count;
    if (!getenv("MSG_CLASSES")) run_again(words, "1");
    take();
    if (atoi(getenv("MSG_CLASSES")) > 1) {
        make_many(MORE - 6);
        printf("of more: no more %d\n", make("Last") == NULL);
        return 0;
    }
    make_many(16384 - 8);
    Class third = make("Third"), waiting = objc_allocateClassPair(&child, "Waiting", 0);
    printf("made %d %d, no more %d\n", third != NULL, waiting != NULL, make("Fifth") == NULL);
    close(2); /* one line is told */
    __objc_exec_class(&late_module);
    printf("of a module: %d, under %d\n", objc_getClass("Late") == NULL,
           class_getSuperclass(&late) == &root);
    objc_disposeClassPair(waiting);
    __objc_exec_class(&empty_module);
    printf("once there is a number: %d\n", objc_getClass("Late") == &late);
    id object = class_createInstance(&late, 0), other = class_createInstance(third, 0);
    printf("sent: %ld %ld\n", send(object, sel_registerName("one")),
           send(other, sel_registerName("two")));
    object_dispose(object);
    object_dispose(other);
    run_again(words, "20000");
    return 1;
}
