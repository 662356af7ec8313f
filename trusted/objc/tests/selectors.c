/* Selectors: by name, with types and without, listed, compared, and registered before main. */
#include "modules.h"
#include <stdlib.h>

static SEL early;
static __attribute__((constructor(101))) void register_early(void)
{
    early = sel_registerName("early:");
}

/* What a compiler writes of a selector, which no module brought. */
static void name_others(void)
{
    static struct { const void *id; const char *types; } text = {"turn:", NULL},
                                                         far = {(void *)(8ul * 5000000), NULL};
    printf("no selectors: %d %d\n", sel_getName((SEL)&text) == NULL,
           sel_getName((SEL)&far) == NULL);
}

static int are_one(const char *types, const char *others)
{
    return sel_registerTypedName("go", types) == sel_registerTypedName("go", others);
}

int main(void)
{
    take();
    SEL plain = sel_registerName("turn:"), left = sel_registerTypedName("turn:", "v20@0:8i16");
    printf("%s, the same again %d, with types another %d but equal %d\n", sel_getName(plain),
           plain == sel_getUid("turn:"), plain != left, sel_isEqual(plain, left));
    printf("types %s, without %d\n", sel_getTypeEncoding(left), sel_getTypeEncoding(plain) == NULL);
    printf("the typed one %d, by other places %d\n", sel_getTypedSelector("turn:") == left,
           sel_registerTypedName("turn:", "v12@0:4i8") == left);
    SEL other = sel_registerTypedName("turn:", "v24@0:8@16");
    unsigned int count;
    SEL *list = sel_copyTypedSelectorList("turn:", &count);
    printf("another %d, now none is the typed one %d, %u in all\n", other != left,
           sel_getTypedSelector("turn:") == NULL, count);
    printf("the newest first: %d%d%d, and then nothing %d\n", list[0] == other, list[1] == left,
           list[2] == plain, !list[3]);
    free(list);
    left = sel_registerTypedName("turn:", "v20@0:8{a=i}16");
    other = sel_registerTypedName("turn:", "v20@0:8{a=s}16");
    printf("of another structure: another %d\n", other != left);
    printf("by qualifiers: one %d %d %d, others %d %d\n", are_one("v16@0:8", "Vv16@0:8"),
           are_one("r*16@0:8", "*16@0:8"), are_one("v24@0:8^r*16", "v24@0:8^*16"),
           are_one("v24@0:8^ri16", "v24@0:8^*16"), are_one("v16@0:8", "Vv24@0:8r*16"));
    printf("registered early: %d\n", sel_registerName("early:") == early);
    name_others();
    printf("unknown: %d %d\n", sel_getTypedSelector("unheard") == NULL,
           sel_copyTypedSelectorList("unheard", &count) == NULL && count == 0);
    printf("NULL: %s %d %d %d\n", sel_getName(NULL), sel_registerName(NULL) == NULL,
           sel_getTypeEncoding(NULL) == NULL, sel_isEqual(NULL, plain));
    printf("like any: %d\n",
           class_addMethod(&root, sel_registerName("forwardingTargetForSelector:"), two,
                           "@24@0:8:16"));
    id object = class_createInstance(&child, 0);
    printf("sent: %ld\n", send(object, sel_registerName("forwardingTargetForSelector:")));
    object_dispose(object);
    return 0;
}
