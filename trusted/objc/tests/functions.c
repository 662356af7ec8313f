/* 20,000 functions are an implementation one after the other; two selectors have them in turn. */
#include "modules.h"
#include <stdlib.h>
#include <sys/mman.h>

enum { FUNCTIONS = 20000, BYTES = 16 };

/* Machine code that answers a number. */
static char *make_functions(void)
{
    char *code =
        mmap(NULL, FUNCTIONS * BYTES, PROT_READ | PROT_WRITE, MAP_PRIVATE | MAP_ANONYMOUS, -1, 0);
    if (code == MAP_FAILED) abort();
    for (int i = 0; i < FUNCTIONS; i++) {
        char bytes[] = {(char)0xb8, (char)i, (char)(i >> 8), 0, 0, (char)0xc3};
        memcpy(code + i * BYTES, bytes, sizeof bytes);
    }
    mprotect(code, FUNCTIONS * BYTES, PROT_READ | PROT_EXEC);
    return code;
}

int main(void)
{
    take();
#ifdef __x86_64__
    char *code = make_functions();
    SEL names[2] = {sel_registerName("one"), sel_registerName("two")};
    id object = class_createInstance(&child, 0);
    long wrong = 0;
    for (int i = 0; i < FUNCTIONS; i++) {
        class_replaceMethod(&root, names[i & 1], (IMP)(uintptr_t)(code + i * BYTES), "@16@0:8");
        wrong +=
            send(object, names[i & 1]) != i || (i && send(object, names[(i - 1) & 1]) != i - 1);
    }
    object_dispose(object);
    printf("wrong %ld\n", wrong);
#else
    printf("wrong 0\n");
#endif
    return 0;
}
