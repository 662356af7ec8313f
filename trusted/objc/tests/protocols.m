/* Protocols: by name, adopted by classes, categories and protocols, and what they say of methods;
 * one that is adopted alone or named alone, and one that a second module brings again. */
#include "roots.h"
#include <stdio.h>
#include <stdlib.h>
#include <string.h>

@protocol Shown - (const char *)shown; + (int)kinds; @end
@protocol Moved - (int)movedBy:(int)steps; @end
@protocol Drawn <Shown, Moved> - (void)draw; - (int)drawn; @end

@interface Figure : Object <Drawn>
@end
@implementation Figure
- (const char *)shown { return "figure"; }
+ (int)kinds { return 1; }
- (int)movedBy:(int)steps { return steps; }
- (void)draw {}
- (int)drawn { return 1; }
@end

@protocol Saved - (int)save; @end
@protocol OfClass @end
@protocol OfCategory @end
@protocol Named - (int)name; @end
@interface Plain : Object <OfClass>
@end
@implementation Plain
@end
@interface Plain (Saving) <Saved, OfCategory>
@end
@implementation Plain (Saving)
- (int)save { return 1; }
@end

/* What a second module emits that speaks of Moved. */
static struct protocol again = {.isa = (Class)2, .name = "Moved"};
static struct { const char *class_name; void *rows[2]; } constants = {"Protocol", {&again, NULL}};
static void *lists[] = {&constants, NULL};
static struct {
    unsigned long ref_count;
    struct objc_selector *refs;
    uint16_t class_count, category_count;
    void *defs[1];
} symbols = {0, NULL, 0, 0, {lists}};
static struct module module = {8, sizeof module, "a second one", (struct symbols *)&symbols};

static void bring_again(Class plain)
{
    unsigned int before, count;
    free(objc_copyProtocolList(&before));
    __objc_exec_class(&module);
    Protocol *other = (Protocol *)&again, **all = objc_copyProtocolList(&count);
    printf("again: %d more, the first is found %d, another object %d\n", (int)(count - before),
           objc_getProtocol("Moved") == @protocol(Moved), other != @protocol(Moved));
    printf("of its name: equal %d, conforms %d %d, is adopted %d %d\n",
           protocol_isEqual(other, @protocol(Moved)),
           protocol_conformsToProtocol(other, @protocol(Moved)),
           protocol_conformsToProtocol(@protocol(Drawn), other),
           class_conformsToProtocol(plain, other), class_addProtocol(plain, other));
    int named = 0;
    for (unsigned int i = 0; i < count; i++)
        named += all[i] && objc_getProtocol(protocol_getName(all[i])) == all[i];
    printf("all are found %d, and then nothing %d\n", named == (int)count, !all[count]);
    free(all);
}

static void show_protocols(void)
{
    unsigned int count;
    Protocol **list = protocol_copyProtocolList(@protocol(Drawn), &count);
    printf("Drawn adopts %u: %s and %s\n", count, protocol_getName(list[0]),
           protocol_getName(list[1]));
    free(list);
    list = class_copyProtocolList(objc_getClass("Plain"), &count);
    printf("Plain has %u: %s\n", count, protocol_getName(list[0]));
    free(list);
    list = objc_copyProtocolList(&count);
    printf("known: %u\n", count);
    free(list);
}

static void show_methods(void)
{
    unsigned int count;
    Protocol *shown = objc_getProtocol("Shown");
    struct description one = protocol_getMethodDescription(shown, @selector(kinds), 1, 0);
    printf("+%s %s\n", sel_getName(one.name.sel), one.types);
    one = protocol_getMethodDescription(shown, @selector(kinds), 1, 1);
    printf("as an instance's: %d, optional: %d\n", one.types != NULL,
           protocol_getMethodDescription(shown, @selector(shown), 0, 1).types != NULL);
    struct description *list = protocol_copyMethodDescriptionList(@protocol(Drawn), 1, 1, &count);
    printf("Drawn itself: %u, %s %s, and then nothing: %d\n", count,
           sel_getName(list[0].name.sel), sel_getName(list[1].name.sel), !list[2].types);
    free(list);
}

int main(void)
{
    Class figure = objc_getClass("Figure"), plain = objc_getClass("Plain");
    printf("Figure: Drawn %d, Shown %d, Saved %d\n",
           class_conformsToProtocol(figure, @protocol(Drawn)),
           class_conformsToProtocol(figure, @protocol(Shown)),
           class_conformsToProtocol(figure, @protocol(Saved)));
    printf("Plain: Saved %d, Moved %d\n", class_conformsToProtocol(plain, @protocol(Saved)),
           class_conformsToProtocol(plain, @protocol(Moved)));
    bool added = class_addProtocol(plain, @protocol(Moved));
    printf("added %d, again %d, then Moved %d\n", added, class_addProtocol(plain, @protocol(Moved)),
           class_conformsToProtocol(plain, @protocol(Moved)));
    printf("Drawn to Moved %d, Moved to Drawn %d\n",
           protocol_conformsToProtocol(@protocol(Drawn), @protocol(Moved)),
           protocol_conformsToProtocol(@protocol(Moved), @protocol(Drawn)));
    printf("equal %d %d, by the object %d\n",
           protocol_isEqual(@protocol(Moved), objc_getProtocol("Moved")),
           protocol_isEqual(@protocol(Moved), @protocol(Saved)),
           [@protocol(Moved) isEqual:objc_getProtocol("Moved")]);
    printf("none of the name: %d, class %s\n", !objc_getProtocol("Nothing"),
           object_getClassName((id) @protocol(Moved)));
    show_protocols();
    show_methods();
    printf("adopted alone: %d %d, named alone: %s %d\n", objc_getProtocol("OfClass") != nil,
           objc_getProtocol("OfCategory") != nil, protocol_getName(@protocol(Named)),
           protocol_getMethodDescription(@protocol(Named), @selector(name), 1, 1).types != NULL);
    bring_again(plain);
    return 0;
}
