/* What replacements take one by one, and as a list: tools/measure/process. Each call on the runtime
 * is made under a lock, as in a host with threads.
 *
 *     lists time WINDOWS ROUNDS          for each size: the medians of nanoseconds a round, one by
 *                                        one and as a list, and of the ratios of windows beside
 *                                        each other
 *     lists one|list COUNT CLASSES ROUNDS   so many rounds, for a count of instructions */
#include "msg_runtime.h"
#include <pthread.h>
#include <stdio.h>
#include <stdlib.h>
#include <string.h>
#include <time.h>

enum { CLASSES = 40, METHODS = 40, MOST = 32 };

static pthread_mutex_t lock = PTHREAD_MUTEX_INITIALIZER;
static msg_runtime runtime = MSG_RUNTIME_INIT;
static msg_change parts[MOST];

static void must(uint32_t fault)
{
    if (!fault) return;
    fprintf(stderr, "lists: %s\n", msg_fault_text(fault));
    exit(1);
}

static void open_all(void)
{
    must(msg_open(&runtime, &(msg_config){.classes = CLASSES + 1, .senders = 1}));
    for (uint32_t number = 1; number <= CLASSES; number++) {
        must(msg_make_root_class(&runtime, number));
        for (uint32_t sel = 1; sel <= METHODS; sel++)
            must(msg_add(&runtime, number, false, sel, sel));
    }
}

/* The methods that are replaced, in turn in each of the classes. */
static void plan(size_t count, size_t classes)
{
    for (size_t i = 0; i < count; i++)
        parts[i] = (msg_change){.kind = MSG_REPLACES, .number = 1 + i % classes, .sel = 1 + i};
}

static void one_by_one(size_t count, uint32_t imp)
{
    for (size_t i = 0; i < count; i++) {
        pthread_mutex_lock(&lock);
        must(msg_replace(&runtime, parts[i].number, false, parts[i].sel, imp));
        pthread_mutex_unlock(&lock);
    }
}

static void as_list(size_t count, uint32_t imp)
{
    size_t place;
    for (size_t i = 0; i < count; i++) parts[i].imp = imp;
    pthread_mutex_lock(&lock);
    must(msg_change_all(&runtime, parts, count, &place));
    pthread_mutex_unlock(&lock);
}

typedef void (*replace)(size_t count, uint32_t imp);

static void repeat(replace all, size_t count, size_t rounds)
{
    for (size_t round = 0; round < rounds; round++) all(count, 1 + round % 16);
}

static double timed(replace all, size_t count, size_t rounds)
{
    struct timespec begun, ended;
    clock_gettime(CLOCK_MONOTONIC, &begun);
    repeat(all, count, rounds);
    clock_gettime(CLOCK_MONOTONIC, &ended);
    return ((ended.tv_sec - begun.tv_sec) * 1e9 + (ended.tv_nsec - begun.tv_nsec)) / rounds;
}

static int by_size(const void *one, const void *other)
{
    double a = *(const double *)one, b = *(const double *)other;
    return (a > b) - (a < b);
}

static double median(double *figures, size_t count)
{
    qsort(figures, count, sizeof *figures, by_size);
    return figures[count / 2];
}

static void measure(size_t count, size_t classes, size_t windows, size_t rounds)
{
    double *one = malloc(3 * windows * sizeof *one), *list = one + windows, *ratio = list + windows;
    plan(count, classes);
    for (size_t window = 0; window < windows; window++) {
        one[window] = timed(one_by_one, count, rounds);
        list[window] = timed(as_list, count, rounds);
        ratio[window] = list[window] / one[window];
    }
    printf("%zu %zu %.0f %.0f %.3f\n", count, classes, median(one, windows), median(list, windows),
           median(ratio, windows));
    free(one);
}

int main(int count, char **words)
{
    static const size_t sizes[][2] = {{2, 1}, {2, 2},  {3, 1},  {3, 3},
                                      {6, 3}, {19, 1}, {19, 3}, {19, 19}};
    open_all();
    if (count == 4 && !strcmp(words[1], "time"))
        for (size_t i = 0; i < sizeof sizes / sizeof *sizes; i++)
            measure(sizes[i][0], sizes[i][1], strtoul(words[2], NULL, 10),
                    strtoul(words[3], NULL, 10));
    else if (count == 5) {
        plan(strtoul(words[2], NULL, 10), strtoul(words[3], NULL, 10));
        repeat(strcmp(words[1], "list") ? one_by_one : as_list, strtoul(words[2], NULL, 10),
               strtoul(words[4], NULL, 10));
    }
    return 0;
}
