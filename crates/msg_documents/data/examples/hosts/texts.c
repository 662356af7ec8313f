/* texts.c: a host whose selectors have names: a name's number is the selector, and its colons are
 * its arguments */
#include <msg_runtime.h>
#include <stdio.h>
#include <stdlib.h>

static msg_texts names = MSG_TEXTS_INIT;
static msg_runtime runtime = MSG_RUNTIME_INIT;

static void must(uint32_t fault)
{
    if (!fault) return;
    fprintf(stderr, "%s\n", msg_fault_text(fault));
    exit(1);
}

static const uint8_t *bytes(const char *text) { return (const uint8_t *)text; }

/* sel_registerName */
static uint32_t registered(const char *name)
{
    uint32_t number;
    must(msg_texts_intern(&names, bytes(name), strlen(name), &number));
    return number;
}

/* sel_getName, and how many arguments it takes */
static void show(uint32_t sel)
{
    char name[16] = "";
    size_t length, colons;
    uint32_t fault = msg_texts_text(&names, sel, (uint8_t *)name, sizeof name - 1, &length);
    if (!fault) fault = msg_texts_colons(&names, sel, &colons);
    if (fault) printf("%u: %s\n", sel, msg_fault_text(fault));
    else printf("%u: %s%s, %zu\n", sel, name, length < sizeof name ? "" : "..", colons);
}

int main(void)
{
    uint32_t found = 0, imp;
    printf("%s\n", msg_fault_text(msg_texts_intern(&names, bytes("value"), 5, &found)));
    must(msg_texts_open(&names));
    must(msg_open(&runtime, NULL));
    printf("%s\n", msg_fault_text(msg_texts_open(&names)));
    must(msg_make_root_class(&runtime, 0));
    must(msg_add(&runtime, 0, false, registered("value"), 1));
    must(msg_add(&runtime, 0, false, registered("setValue:forKey:"), 2));
    must(msg_add(&runtime, 0, false, registered("compare:"), 3));
    must(msg_lookup(&runtime, 0, false, registered("setValue:forKey:"), &imp));
    printf("found %u\n", imp);
    for (uint32_t sel = 0; sel <= 4; sel++) show(sel);
    printf("%s\n", msg_fault_text(msg_texts_find(&names, bytes("valu"), 4, &found)));
    must(msg_texts_find(&names, bytes("compare:"), 8, &found));
    printf("compare: %u\n", found);
    must(msg_texts_close(&names));
    must(msg_close(&runtime));
    printf("%s\n", msg_fault_text(msg_texts_close(&names)));
    return 0;
}
