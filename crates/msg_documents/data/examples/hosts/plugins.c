/* plugins.c: three plug-ins come and go while eight threads send. Each is a shared object that a
 * host opens, makes known by one list of changes, takes out by the list's way back, and closes once
 * no thread can be in its code any more.
 *
 *     plugins ONE.so TWO.so THREE.so [TIMES]
 *
 * The same source is a plug-in, with -DPLUGIN=1, 2 or 3. */
#include <stdint.h>

#ifdef PLUGIN
/* What the host calls: two methods, each of which says whose it is. */
uint32_t area(uint32_t side) { return 10 * PLUGIN + (side & 1); }
uint32_t edge(uint32_t side) { return 10 * PLUGIN + 2 + (side & 1); }
#else

#include <dlfcn.h>
#include <msg_process.h>
#include <sched.h>
#include <stdatomic.h>
#include <stdio.h>
#include <stdlib.h>

enum { SQUARE, AREA = 1, EDGE, METHODS = 2, PLUGINS = 3, THREADS = 8, TIMES = 10000 };

typedef uint32_t (*method)(uint32_t side);
static uint32_t own_area(uint32_t side) { return side & 1; }
static uint32_t own_edge(uint32_t side) { return 2 + (side & 1); }

/* By an implementation's number. Those of a plug-in are given again once nobody can have them. */
static method _Atomic methods[1 + METHODS + METHODS * PLUGINS] = {NULL, own_area, own_edge};
static atomic_bool is_over;
static atomic_long wrong, sends, waits;

static void must(uint32_t fault)
{
    if (!fault) return;
    fprintf(stderr, "%s\n", msg_fault_text(fault));
    exit(1);
}

/* Both are of one plug-in, or the class's own. */
static void *work(void *unused)
{
    static const msg_lookup_row both[METHODS] = {{SQUARE, 0, AREA}, {SQUARE, 0, EDGE}};
    (void)unused;
    while (!is_over) {
        uint32_t imps[METHODS], answers[METHODS];
        size_t place;
        must(msg_process_find_all(both, METHODS, imps, &place));
        for (int i = 0; i < METHODS; i++) answers[i] = methods[imps[i]](1);
        if (answers[0] / 10 != answers[1] / 10 || answers[1] - answers[0] != 2) wrong++;
        sends++;
        must(msg_process_rest()); /* in no method now */
    }
    return NULL;
}

struct plugin {
    void *handle;
    uint32_t first; /* of its implementations' numbers */
    msg_change back[METHODS]; /* what takes it out */
    size_t count;
};

static void come(struct plugin *plugin, const char *path)
{
    static const char *const names[METHODS] = {"area", "edge"};
    msg_change changes[METHODS];
    msg_runtime *runtime;
    size_t place;
    plugin->handle = dlopen(path, RTLD_NOW | RTLD_LOCAL);
    if (!plugin->handle) fprintf(stderr, "%s\n", dlerror()), exit(1);
    for (int i = 0; i < METHODS; i++) {
        /* the slot first, then the change: who finds the number sees what stands there */
        uint32_t imp = plugin->first + (uint32_t)i, sel = AREA + (uint32_t)i;
        methods[imp] = (method)dlsym(plugin->handle, names[i]);
        changes[i] = (msg_change){.kind = MSG_COVERS, .number = SQUARE, .sel = sel, .imp = imp};
    }
    must(msg_process_lock(&runtime));
    must(msg_change_all_with_undo(runtime, changes, METHODS, plugin->back, METHODS, &plugin->count,
                                  &place));
    msg_process_unlock();
}

/* Each thread is in none of its code before it is closed. */
static void go(struct plugin *plugin)
{
    uint64_t changes, seen = 0, thread;
    msg_runtime *runtime;
    size_t place;
    must(msg_process_lock(&runtime));
    must(msg_change_all(runtime, plugin->back, plugin->count, &place));
    must(msg_change_count(runtime, &changes));
    msg_process_unlock();
    must(msg_process_seen_by_all(&seen, &thread));
    while (seen < changes) {
        waits++;
        sched_yield();
        must(msg_process_seen_by_all(&seen, &thread));
    }
    dlclose(plugin->handle);
}

int main(int count, char **words)
{
    static struct plugin plugins[PLUGINS];
    pthread_t threads[THREADS];
    msg_runtime *runtime;
    if (count < 1 + PLUGINS) return fprintf(stderr, "plugins ONE.so TWO.so THREE.so [TIMES]\n"), 2;
    int times = count > 1 + PLUGINS ? atoi(words[1 + PLUGINS]) : TIMES;
    must(msg_process_start(NULL));
    must(msg_process_lock(&runtime));
    must(msg_make_root_class(runtime, SQUARE));
    must(msg_add(runtime, SQUARE, false, AREA, 1));
    must(msg_add(runtime, SQUARE, false, EDGE, 2));
    msg_process_unlock();
    for (uint32_t k = 0; k < PLUGINS; k++) plugins[k].first = 1 + METHODS + METHODS * k;
    for (int i = 0; i < THREADS; i++) pthread_create(&threads[i], NULL, work, NULL);
    for (int i = 0; i < times; i++) {
        for (int k = 0; k < PLUGINS; k++) come(&plugins[k], words[1 + k]);
        while (!sends) sched_yield();
        for (int k = PLUGINS; k--;) go(&plugins[k]); /* the last that came is on top */
    }
    is_over = true;
    for (int i = 0; i < THREADS; i++) pthread_join(threads[i], NULL);
    fprintf(stderr, "%ld sends, %ld looks at who is in old code\n", sends, waits);
    printf("%d plug-ins came and went, each %d times, beside %d threads: %ld wrong answers\n",
           PLUGINS, times, THREADS, wrong);
    return wrong != 0;
}
#endif
