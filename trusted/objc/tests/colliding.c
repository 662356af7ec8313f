/* Names of selectors that were made to be mixed alike, by one who knows how names are mixed but not
 * what the process starts from: they cost as little as others, and each has a number of its own. */
#include "modules.h"
#include <stdlib.h>
#include <time.h>

enum { BITS = 14, NAMES = 1 << BITS, MOST = 12 };

static SEL made[NAMES];

/* Two times eight letters for each bit. What one of the first eight changes in what is mixed from
 * them, if that is multiplied by any odd number, those of the second take back. */
static void spell(char *name, int number, const char *end)
{
    for (int bit = 0; bit < BITS; bit++) {
        char *at = name + 16 * bit;
        memcpy(at, "abcdefghijklmnop", 16);
        if (number >> bit & 1) at[7] ^= '\x80', at[11] ^= '\x80', at[15] ^= '\x80';
    }
    strcpy(name + 16 * BITS, end);
}

static void spell_other(char *name, int number, const char *end)
{
    memset(name, 'a', 16 * BITS);
    snprintf(name + 16 * BITS - 8, 32, "%08d%s", number, end);
}

static double seconds(void)
{
    struct timespec time;
    clock_gettime(CLOCK_THREAD_CPUTIME_ID, &time);
    return (double)time.tv_sec + (double)time.tv_nsec / 1e9;
}

static double time_of(void (*spelled)(char *, int, const char *), const char *end)
{
    char name[16 * BITS + 32];
    double start = seconds();
    for (int i = 0; i < NAMES; i++) {
        spelled(name, i, end);
        made[i] = sel_registerName(name);
    }
    return seconds() - start;
}

static int compare(const void *one, const void *other)
{
    uintptr_t here = (*(const SEL *)one)->name.key, there = (*(const SEL *)other)->name.key;
    return (here > there) - (here < there);
}

static long count_wrong(const char *end)
{
    char name[16 * BITS + 32];
    long wrong = 0;
    for (int i = 0; i < NAMES; i++) {
        spell(name, i, end);
        wrong +=
            !made[i] || strcmp(sel_getName(made[i]), name) || sel_registerName(name) != made[i];
    }
    qsort(made, NAMES, sizeof *made, compare);
    for (int i = 1; i < NAMES; i++) wrong += made[i - 1]->name.key == made[i]->name.key;
    return wrong;
}

int main(void)
{
    take();
    double other = time_of(spell_other, "first") + 0.01, alike = time_of(spell, "alike");
    printf("many times as long: %d\n", alike > MOST * other);
    printf("of %d names wrong %ld\n", NAMES, count_wrong("alike"));
    id object = class_createInstance(&root, 0);
    printf("sent %ld\n", send(object, sel_registerName("one")));
    object_dispose(object);
    return 0;
}
