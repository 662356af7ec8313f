/* Calls of older headers, and a hook, which programs may still ask for: each answers as GCC's
 * libobjc does. A structure that is copied as a whole is never seen half written. */
#include "calls.h"
#include <pthread.h>
#include <stdio.h>
#include <string.h>

enum { PARTS = 64, COPIES = 200000, WRITES = 200000, PAGE = 256 };

struct large { long parts[PARTS]; };

/* Locks are chosen by a place in so many bytes: each structure has another, some before that of
 * what is shared. */
struct placed { _Alignas(PAGE) char room[PAGE + sizeof(struct large)]; };
#define AT(placed, place) ((struct large *)&(placed).room[16 * (place)])

static struct placed shared;
static int asked, ended, writes[2];

static Class find(const char *name)
{
    asked++;
    return strcmp(name, "Nowhere") ? NULL : objc_lookUpClass("Object");
}

static Class find_nothing(const char *name)
{
    (void)name;
    return NULL;
}

static void *write_all(void *count)
{
    struct placed room;
    struct large *own = AT(room, count == writes ? 1 : 14);
    for (long value = 0; !__atomic_load_n(&ended, __ATOMIC_ACQUIRE); value++) {
        for (int i = 0; i < PARTS; i++) own->parts[i] = value;
        objc_copyStruct(AT(shared, 8), own, sizeof *own, 1, 0);
        __atomic_fetch_add((int *)count, 1, __ATOMIC_RELAXED);
    }
    return NULL;
}

static bool is_written(int writer)
{
    return __atomic_load_n(&writes[writer], __ATOMIC_RELAXED) >= WRITES;
}

/* How many copies were of more than one value, beside many that were written. */
static int read_all(void)
{
    int mixed = 0;
    for (int i = 0; i < COPIES || !is_written(0) || !is_written(1); i++) {
        struct placed room;
        struct large *own = AT(room, i % 2 ? 15 : 0);
        objc_copyStruct(own, AT(shared, 8), sizeof *own, 1, 0);
        mixed += own->parts[0] != own->parts[PARTS - 1];
    }
    return mixed;
}

static void tell_copies(void)
{
    int from[3] = {1, 2, 3}, to[3] = {0, 0, 0};
    pthread_t writers[2];
    objc_copyStruct(to, from, 2 * sizeof *to, 0, 0);
    printf("copied %d %d %d\n", to[0], to[1], to[2]);
    for (int i = 0; i < 2; i++) pthread_create(&writers[i], NULL, write_all, &writes[i]);
    printf("mixed %d\n", read_all());
    __atomic_store_n(&ended, 1, __ATOMIC_RELEASE);
    for (int i = 0; i < 2; i++) pthread_join(writers[i], NULL);
}

static void tell_functions(Class object)
{
    SEL equal = sel_registerName("isEqual:"), none = sel_registerName("none");
    Method method = class_getInstanceMethod(object, equal);
    IMP imp = method_getImplementation(method);
    printf("found %d, as of the method %d, of none %d\n", get_imp(object, equal) == imp,
           method_get_imp(method) == imp, method_get_imp(NULL) == NULL);
    printf("not found, but something to call %d\n",
           get_imp(object, none) != NULL && get_imp(object, none) != imp);
}

static void tell_selectors(void)
{
    printf("never heard of %d; ", sel_get_any_uid("never heard of") == NULL);
    sel_registerTypedName("typed", "i16@0:8");
    SEL newest = sel_registerTypedName("typed", "v16@0:8");
    printf("the newest %d, ", sel_get_any_uid("typed") == newest);
    newest = sel_registerName("typed");
    printf("%d\n", sel_get_any_uid("typed") == newest);
    struct objc_selector empty = {{0}, NULL}, text = {{.text = "typed"}, NULL},
                         far = {{.key = UINTPTR_MAX}, NULL};
    SEL later = sel_registerName("else");
    /* of a number that no name has yet */
    struct objc_selector next = {{.key = 1000 * later->name.key - 999 * newest->name.key}, NULL};
    printf("selectors %d %d, not %d %d %d %d\n", sel_is_mapped(newest), sel_is_mapped(later),
           sel_is_mapped(&empty), sel_is_mapped(&text), sel_is_mapped(&far), sel_is_mapped(&next));
}

static void tell_classes(Class object)
{
    printf("no hook at first %d; ", _objc_lookup_class == NULL);
    _objc_lookup_class = find;
    printf("unknown %d %d, ", objc_getClass("Nowhere") == object,
           objc_get_class("Nowhere") == object);
    printf("known %d, only looked up %d; asked %d\n", objc_getClass("Object") == object,
           objc_lookUpClass("Nowhere") == NULL, asked);
    objc_setGetUnknownClassHandler(find_nothing);
    printf("with a handler %d; asked %d\n", objc_getClass("Nowhere") == NULL, asked);
}

int main(void)
{
    Class object = objc_getClass("Object");
    tell_copies();
    tell_functions(object);
    tell_selectors();
    tell_classes(object);
    return 0;
}
