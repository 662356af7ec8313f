/* After an exchange the subclass finds the exchanged methods, by name and by a neighbouring
 * name. */
#include "modules.h"

int main(void)
{
    take();
    SEL first = sel_registerName("one"), second = sel_registerName("two");
    id object = class_createInstance(objc_getClass("Child"), 0);
    printf("%ld %ld\n", send(object, first), send(object, second));
    method_exchangeImplementations(class_getInstanceMethod(object->isa, first),
                                   class_getInstanceMethod(object->isa, second));
    printf("%ld %ld\n", send(object, first), send(object, second));
    object_dispose(object);
    return 0;
}
