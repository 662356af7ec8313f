/* Modules spelled out in C, as a compiler emits them, for tests without one. */
#include "calls.h"
#include <stdio.h>
#include <string.h>

static struct objc_class root_meta = {.name = "Root", .info = 2, .instance_size = 104};
static struct objc_class root = {.isa = &root_meta, .name = "Root", .info = 1, .instance_size = 8};
static struct objc_class child_meta = {.name = "Child", .info = 2, .instance_size = 104};
static struct objc_class child = {
    .isa = &child_meta, .superclass.text = "Root", .name = "Child", .info = 1, .instance_size = 8};

static id one(id self, SEL sel, ...) { (void)self; (void)sel; return (id)11; }
static id two(id self, SEL sel, ...) { (void)self; (void)sel; return (id)12; }

static struct {
    struct method_list *next;
    int32_t count;
    struct objc_method rows[2];
} methods = {NULL, 2, {{.name.text = "one", "@16@0:8", one}, {.name.text = "two", "@16@0:8", two}}};
static struct {
    unsigned long ref_count;
    struct objc_selector *refs;
    uint16_t class_count, category_count;
    void *defs[3];
} symbols = {0, NULL, 2, 0, {&child, &root, NULL}};
static struct module module = {8, sizeof module, "a test", (struct symbols *)&symbols};

static void take(void)
{
    root.methods = (struct method_list *)&methods;
    __objc_exec_class(&module);
}

static long send(id receiver, SEL sel)
{
    return (long)objc_msg_lookup(receiver, sel)(receiver, sel);
}
