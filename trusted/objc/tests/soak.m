/* All at once: 16 threads send, 4 change, one loads and closes modules, one forks, and two send
 * signals, whose handlers send. Each answer is a function of its class and selector, of no change
 * before the last that had returned, nor after the last that was begun; nobody waits for ever, and
 * memory stays.
 *
 * The layer for a process below the shim is asked which functions all threads have left since they
 * rested: those are poisoned until they are methods again, and none of them runs meanwhile. A
 * libobjc.so.4 has the layer for itself; over that nothing is poisoned.
 *
 *     soak [SECONDS]        5 by default */
#include "places.h"
#include "../../../include/msg_process.h"
#include <dlfcn.h>
#include <pthread.h>
#include <sched.h>
#include <signal.h>
#include <stdlib.h>
#include <sys/wait.h>

enum {
    SENDERS = 16,
    CHANGERS = 4,
    SIGNALLERS = 2,
    SIGNALLED = SENDERS + CHANGERS,
    ALL = SIGNALLED + SIGNALLERS + 2
};
enum {
    CLASSES = CHANGERS,
    OWN = 4,
    VERSIONS = 8,
    MADE = 100,
    TEXT = 1 << 20,
    PATIENCE = 60,
    GROWTH = 16384
};

/* A sanitizer's allocator isn't held over a fork. Where another thread had one of its locks, a
 * child that takes memory waits for ever: under the thread sanitizer that of one run in thirty, in
 * a change. So a child takes none there. Under the address sanitizer, by which one child in ten
 * waits, nobody forks. */
#ifdef SANITIZED_address
enum { FORKS = 0, CHILD_CHANGES = 0 };
#elif defined SANITIZED_thread
enum { FORKS = 1, CHILD_CHANGES = 0 };
#else
enum { FORKS = 1, CHILD_CHANGES = 1 };
#endif

/* The layer's calls, as the shim has them. */
extern uint32_t shim_process_rest(void) __attribute__((weak));
extern uint32_t shim_process_lock(msg_runtime **runtime) __attribute__((weak));
extern void shim_process_unlock(void) __attribute__((weak));
extern uint32_t shim_process_seen_by_all(uint64_t *changes, uint64_t *thread)
    __attribute__((weak));
extern uint32_t msg_change_count(msg_runtime *runtime, uint64_t *count) __attribute__((weak));

static long wrong, poisoned[CLASSES * VERSIONS], ran_by_now;

/* Runs as a class's function for one selector, in one version. Sometimes it takes longer. */
static int run(int function)
{
    long *at = &poisoned[function / VERSIONS / OWN * VERSIONS + function % VERSIONS];
    if (get(at)) count(&wrong);
    if (count(&ran_by_now) % 1024 == 0) sched_yield();
    if (get(at)) count(&wrong);
    return function;
}

#define F(n) static int f##n(id self, SEL sel) { (void)self; (void)sel; return run(0##n); }
#define EIGHT(n, k) k(n##0) k(n##1) k(n##2) k(n##3) k(n##4) k(n##5) k(n##6) k(n##7)
#define SQUARE(n, k) EIGHT(n##0, k) EIGHT(n##1, k) EIGHT(n##2, k) EIGHT(n##3, k) \
    EIGHT(n##4, k) EIGHT(n##5, k) EIGHT(n##6, k) EIGHT(n##7, k)
SQUARE(0, F) SQUARE(1, F)
#define NAME(n) (IMP)f##n,
static const IMP functions[CLASSES * OWN * VERSIONS] = {SQUARE(0, NAME) SQUARE(1, NAME)};

const int __objc_class_name_Root; /* by which a compiler tells the linker that the class is here */
static Class classes[CLASSES];
static id objects[CLASSES];
static SEL sels[OWN];
static long begun[CLASSES], returned[CLASSES];
static long over, hung, sends, changes, modules, forks, signals, handled, poisons;
static long progress[ALL];
static pthread_t threads[ALL];
static double length;
static long half; /* how much memory there is in the end's begin, when modules are over */

static void look(unsigned at)
{
    int class_ = at % CLASSES, own = at / CLASSES % OWN;
    long least = get(&returned[class_]);
    id object = objects[class_];
    struct objc_super super_ = {object, classes[class_]};
    IMP imp =
        at & 64 ? objc_msg_lookup_super(&super_, sels[own]) : objc_msg_lookup(object, sels[own]);
    long answer = ((int (*)(id, SEL))imp)(object, sels[own]), most = get(&begun[class_]);
    if (answer / VERSIONS != class_ * OWN + own) count(&wrong);
    if (most - least >= VERSIONS) return;
    while (least % VERSIONS != answer % VERSIONS && least <= most) least++;
    if (least > most) count(&wrong);
}

/* Between two events: in no function of a class, nor in one that was looked up. */
static void rest(void)
{
    if (shim_process_rest && shim_process_rest()) count(&wrong);
}

static uint64_t change_count(void)
{
    uint64_t at = 0;
    msg_runtime *runtime;
    if (!shim_process_rest) return 0;
    if (shim_process_lock(&runtime) || msg_change_count(runtime, &at)) count(&wrong);
    shim_process_unlock();
    return at;
}

/* A child has nobody but its own thread, which has just rested. */
static void rest_alone(void)
{
    uint64_t seen = 0, thread = 0;
    rest();
    if (shim_process_rest && shim_process_seen_by_all(&seen, &thread)) count(&wrong);
    if (thread || seen != change_count()) count(&wrong);
}

/* What became of a class's functions in one version: taken out at that count of changes, or 0. */
static void poison_left(int class_, const uint64_t *taken_out)
{
    uint64_t seen, thread;
    if (!shim_process_rest) return;
    if (shim_process_seen_by_all(&seen, &thread)) count(&wrong);
    for (int i = 0; i < VERSIONS; i++) {
        long *at = &poisoned[class_ * VERSIONS + i];
        if (!taken_out[i] || taken_out[i] > seen || get(at)) continue;
        set(at, 1);
        count(&poisons);
    }
}

/* Before a thread is sent signals: what a handler finds before the thread's first find nobody
 * counts where the lock isn't to be had. */
static void begin(void)
{
    sigset_t own;
    sigemptyset(&own);
    sigaddset(&own, SIGUSR1);
    look(0);
    pthread_sigmask(SIG_UNBLOCK, &own, NULL);
}

static void handle(int signal)
{
    (void)signal;
    for (unsigned at = 0; at < CLASSES * OWN; at += 3) look(at);
    count(&handled);
}

static void *send_on(void *own)
{
    unsigned random = (unsigned)(uintptr_t)own;
    begin();
    while (!get(&over)) {
        rest();
        for (int i = 0; i < 100; i++) look((random = random * 1664525 + 1013904223) >> 16);
        Class class_ = classes[random >> 16 & 3];
        id object = class_createInstance(class_, random >> 20);
        objc_sync_enter(object);
        if (!class_respondsToSelector(object->isa, sels[0]) ||
            class_respondsToSelector(object->isa, sel_registerName("none")))
            count(&wrong);
        objc_sync_exit(object);
        object_dispose(object);
        count(&sends);
        count(own);
    }
    return NULL;
}

/* Under the names of which there are a few, in a class that nobody sees. */
static void make_class(unsigned number, IMP imp)
{
    char name[32];
    snprintf(name, sizeof name, "Made%u", number % MADE);
    Class class_ = objc_allocateClassPair(&root, name, 0);
    class_addMethod(class_, sel_registerName(name), imp, "i16@0:8");
    if (number < MADE / 2) objc_registerClassPair(class_);
    else objc_disposeClassPair(class_);
}

static void *change(void *at)
{
    int class_ = (int)((long *)at - progress) - SENDERS;
    uint64_t taken_out[VERSIONS] = {0};
    begin();
    for (long version = 1; !get(&over); version++) {
        const IMP *all = functions + class_ * OWN * VERSIONS + version % VERSIONS;
        taken_out[version % VERSIONS] = 0;
        set(&poisoned[class_ * VERSIONS + version % VERSIONS], 0);
        set(&begun[class_], version);
        for (int own = 0; own < OWN; own++)
            if (version % 2)
                class_replaceMethod(classes[class_], sels[own], all[own * VERSIONS], "i16@0:8");
            else
                method_setImplementation(class_getInstanceMethod(classes[class_], sels[own]),
                                         all[own * VERSIONS]);
        set(&returned[class_], version);
        taken_out[(version - 1) % VERSIONS] = change_count();
        for (unsigned i = 0; i < CLASSES * OWN; i++) look(i);
        rest();
        poison_left(class_, taken_out);
        if (version % 16 == 0)
            make_class((unsigned)version / 16 * CHANGERS + (unsigned)class_, all[0]);
        count(&changes);
        count(at);
    }
    return NULL;
}

static size_t read_text(char *text)
{
    char path[512];
    snprintf(path, sizeof path, "%s.0.so", MODULES);
    FILE *file = fopen(path, "rb");
    size_t size = file ? fread(text, 1, TEXT, file) : 0;
    if (file) fclose(file);
    return size;
}

/* A module of its own number: loaded, asked, and closed three times. */
static void load(char *text, size_t size, int number)
{
    char path[512], digits[8];
    snprintf(digits, sizeof digits, "%04d", number);
    snprintf(path, sizeof path, "%s.made.%s.so", MODULES, digits);
    for (size_t i = 5; i + 4 <= size; i++) /* but for symbols, which are found by their hashes */
        if (!memcmp(text + i, "0000", 4) && memchr("kedn", text[i - 1], 4) &&
            !memchr("_e", text[i - 5], 2))
            memcpy(text + i, digits, 4);
    FILE *file = fopen(path, "wb");
    if (!file || fwrite(text, 1, size, file) != size || fclose(file)) count(&wrong);
    for (int i = 0; i < 3; i++) {
        void *handle = dlopen(path, RTLD_NOW);
        int (*ask)(void) = handle ? (int (*)(void))dlsym(handle, "ask") : NULL;
        if (!ask || ask() != 6) count(&wrong);
        if (!handle || dlclose(handle)) count(&wrong);
    }
    unlink(path);
}

/* All in the first half, on a machine that has the time. */
static void *load_on(void *at)
{
    static char whole[TEXT], text[TEXT];
    size_t size = read_text(whole);
    double start = now();
    for (int number = 1; !get(&over); usleep(1000)) {
        count(at);
        rest();
        if (get(&half) || number > MADE || now() < start + number * length / 2 / MADE) continue;
        memcpy(text, whole, size);
        load(text, size, number++);
        count(&modules);
    }
    return NULL;
}

static void wait_for(pid_t child)
{
    int status = 0;
    double start = now();
    while (!waitpid(child, &status, WNOHANG))
        if (now() < start + PATIENCE) usleep(500);
        else count(&hung), kill(child, SIGKILL), start = now();
    if (status) count(&wrong);
}

static void *fork_on(void *at)
{
    for (; !get(&over); count(at)) {
        if (!FORKS) {
            usleep(1000);
            continue;
        }
        pid_t child = fork();
        if (!child) {
            for (unsigned i = 0; i < CLASSES * OWN; i++) look(i);
            rest_alone();
            if (!CHILD_CHANGES) _exit(get(&wrong) != 0);
            set(&poisoned[0], 0);
            class_replaceMethod(classes[0], sels[0], functions[0], "i16@0:8");
            _exit(((int (*)(id, SEL))objc_msg_lookup(objects[0], sels[0]))(objects[0], sels[0]) ||
                  get(&wrong));
        }
        wait_for(child);
        count(&forks);
    }
    return NULL;
}

/* A thread that has gone on since its last signal gets one. If signals came faster than a handler
 * that waits for the lock, the thread would never leave what it was interrupted in. That may be an
 * allocation, which whoever has the lock waits for. */
static void *signal_on(void *at)
{
    static long signalled[SIGNALLED];
    for (unsigned random = (unsigned)(uintptr_t)at; !get(&over); count(at)) {
        random = random * 1664525 + 1013904223;
        unsigned to = (random >> 16) % SIGNALLED;
        long is = get(&progress[to]);
        if (is != get(&signalled[to])) {
            set(&signalled[to], is);
            pthread_kill(threads[to], SIGUSR1);
            count(&signals);
        }
        usleep(100);
    }
    return NULL;
}

static long kilobytes(void)
{
    long pages = 0;
    FILE *file = fopen("/proc/self/statm", "r");
    if (!file || fscanf(file, "%*d %ld", &pages) != 1) pages = 0;
    if (file) fclose(file);
    return 4 * pages;
}

/* Each thread goes on. */
static void watch(void)
{
    static long seen[ALL];
    static double last[ALL];
    for (int i = 0; i < ALL; i++) {
        long is = get(&progress[i]);
        if (is != seen[i] || !last[i]) last[i] = now();
        seen[i] = is;
        if (now() > last[i] + 2 * PATIENCE) end("stuck\n");
    }
}

static int is_little(void)
{
    return !get(&modules) || (FORKS && !get(&forks)) || !get(&changes) ||
           (shim_process_rest && !get(&poisons));
}

static void make_classes(void)
{
    take();
    for (int own = 0; own < OWN; own++) {
        char name[32];
        snprintf(name, sizeof name, "soak%d", own);
        sels[own] = one_place_on(name);
    }
    for (int i = 0; i < CLASSES; i++) {
        char name[32];
        snprintf(name, sizeof name, "Soaking%d", i);
        classes[i] = objc_allocateClassPair(&root, name, 0);
        for (int own = 0; own < OWN; own++)
            class_addMethod(classes[i], sels[own], functions[(i * OWN + own) * VERSIONS],
                            "i16@0:8");
        objc_registerClassPair(classes[i]);
        objects[i] = class_createInstance(classes[i], 0);
        for (int own = 0; own < OWN; own++) look((unsigned)(i + CLASSES * own));
    }
}

int main(int words, char **word)
{
    sigset_t own;
    length = words > 1 ? atof(word[1]) : 5;
    make_classes();
    signal(SIGUSR1, handle);
    sigemptyset(&own);
    sigaddset(&own, SIGUSR1);
    pthread_sigmask(SIG_BLOCK, &own, NULL);
    for (int i = 0; i < ALL; i++) {
        void *(*goes_on)(void *) = i < SENDERS     ? send_on
                                   : i < SIGNALLED ? change
                                   : i < ALL - 2   ? signal_on
                                   : i < ALL - 1   ? load_on
                                                   : fork_on;
        pthread_create(&threads[i], NULL, goes_on, &progress[i]);
    }
    double start = now(), told = start;
    while (now() < start + length || (is_little() && now() < start + length + PATIENCE)) {
        usleep(50000);
        watch();
        rest();
        if (!half && now() > start + 0.6 * length && get(&modules)) set(&half, kilobytes());
        if (now() < told + 10) continue;
        told = now();
        fprintf(stderr, "%3.0f s: %ld KiB, %ld forks, wrong %ld\n", told - start, kilobytes(),
                get(&forks), get(&wrong));
    }
    set(&over, 1);
    for (int i = ALL; i--;) pthread_join(threads[i], NULL);
    long grown = half ? kilobytes() - half : 0;
    fprintf(stderr,
            "soak: %ld hundreds sent, %ld changes, %ld versions poisoned, %ld modules, %ld forks, "
            "%ld signals, %ld handled, %ld KiB more\n",
            sends, changes, poisons, modules, forks, signals, handled, grown);
#ifdef SANITIZED
    grown = 0;
#endif
    printf("each went on %d, wrong %ld, hung %ld, grown %d\n",
           !is_little(), wrong, hung, grown > GROWTH);
    return 0;
}
