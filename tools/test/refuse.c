/* A library to be loaded first (LD_PRELOAD), by which tools/test/refused_allocations refuses the
 * allocation, or the start of a thread, that has the number REFUSE in its run. It then writes a
 * byte to the descriptor 9. */
#define _GNU_SOURCE
#include <dlfcn.h>
#include <errno.h>
#include <pthread.h>
#include <stdlib.h>
#include <unistd.h>

extern void *__libc_malloc(size_t), *__libc_calloc(size_t, size_t);
extern void *__libc_realloc(void *, size_t), *__libc_memalign(size_t, size_t);

static long number = -1, calls;

static int refused(void)
{
    if (number < 0) {
        const char *text = getenv("REFUSE");
        number = text ? atol(text) : 0;
    }
    if (number == 0 || __atomic_add_fetch(&calls, 1, __ATOMIC_SEQ_CST) != number) return 0;
    if (write(9, "r", 1)) {}
    errno = ENOMEM;
    return 1;
}

void *malloc(size_t n) { return refused() ? NULL : __libc_malloc(n); }

void *calloc(size_t n, size_t m) { return refused() ? NULL : __libc_calloc(n, m); }

void *realloc(void *p, size_t n) { return refused() ? NULL : __libc_realloc(p, n); }

void *aligned_alloc(size_t a, size_t n) { return refused() ? NULL : __libc_memalign(a, n); }

int posix_memalign(void **p, size_t a, size_t n)
{
    if (refused()) return ENOMEM;
    *p = __libc_memalign(a, n);
    return *p ? 0 : ENOMEM;
}

int pthread_create(pthread_t *thread, const pthread_attr_t *attributes, void *(*run)(void *),
                   void *given)
{
    int (*start)(pthread_t *, const pthread_attr_t *, void *(*)(void *), void *) =
        dlsym(RTLD_NEXT, "pthread_create");
    return refused() ? EAGAIN : start(thread, attributes, run, given);
}
