/* Loads bundles by NSBundle while three threads send, also to what has been loaded:   bundles
 * FOLDER COUNT It prints how many sends the threads made, how many answered otherwise than they
 * must, and the milliseconds of loading. */
#import <Foundation/Foundation.h>
#include <objc/runtime.h>
#include <pthread.h>
#include <time.h>

enum { SENDERS = 3, MOST = 64 };

@interface Sent : NSObject
- (int)sent;
@end
@implementation Sent
- (int)sent { return 1; }
@end

static Class loaded[MOST];
static int loaded_count, ends;
static unsigned long sends, wrong;
static SEL value;

static int ask(id receiver, SEL sel) { return ((int (*)(id, SEL))objc_msg_lookup(receiver, sel))(receiver, sel); }

/* How many of a round's answers are wrong. */
static unsigned round_of(Sent *sent, NSString *text)
{
    unsigned bad = ([sent sent] != 1) + ([text length] != 4) + ([text isKindOfClass: [NSString class]] != YES);
    int count = __atomic_load_n(&loaded_count, __ATOMIC_ACQUIRE);
    for (int i = 0; i < count; i++) bad += ask((id)loaded[i], value) != 100 + i;
    __atomic_fetch_add(&sends, 4 + count, __ATOMIC_RELAXED);
    return bad;
}

static void *send_all(void *unused)
{
    GSRegisterCurrentThread();
    NSAutoreleasePool *pool = [NSAutoreleasePool new];
    Sent *sent = [Sent new];
    NSString *text = [[NSString alloc] initWithUTF8String: "text"];
    while (!__atomic_load_n(&ends, __ATOMIC_RELAXED)) __atomic_fetch_add(&wrong, round_of(sent, text), __ATOMIC_RELAXED);
    [pool release];
    GSUnregisterCurrentThread();
    return unused;
}

/* What the bundle has added answers in the thread that loaded it, at once. */
static unsigned is_wrong(Class principal, int number)
{
    char added[32], added_to_all[32];
    snprintf(added, sizeof added, "added%d", number);
    snprintf(added_to_all, sizeof added_to_all, "addedToAll%d", number);
    unsigned bad = !principal || ask((id)principal, value) != 100 + number;
    bad += ask(@"text", sel_registerName(added)) != number;
    return bad + (ask((id)[Sent class], sel_registerName(added_to_all)) != 1000 + number);
}

static double now(void)
{
    struct timespec time;
    clock_gettime(CLOCK_MONOTONIC, &time);
    return time.tv_sec * 1e3 + time.tv_nsec / 1e6;
}

static double load(NSString *folder, int number)
{
    NSString *name = [NSString stringWithFormat: @"%@/B%d.bundle", folder, number];
    double began = now();
    NSBundle *bundle = [NSBundle bundleWithPath: name];
    [bundle load];
    double took = now() - began;
    loaded[number] = [bundle principalClass];
    __atomic_fetch_add(&wrong, is_wrong(loaded[number], number), __ATOMIC_RELAXED);
    __atomic_store_n(&loaded_count, number + 1, __ATOMIC_RELEASE);
    return took;
}

int main(int count, char **words)
{
    pthread_t threads[SENDERS];
    double took = 0;
    NSAutoreleasePool *pool = [NSAutoreleasePool new];
    value = sel_registerName("loadedValue");
    for (int i = 0; i < SENDERS; i++) pthread_create(&threads[i], NULL, send_all, NULL);
    while (__atomic_load_n(&sends, __ATOMIC_RELAXED) < 1000) {}
    for (int i = 0; count > 2 && i < atoi(words[2]); i++) took += load([NSString stringWithUTF8String: words[1]], i);
    unsigned long before = sends;
    while (__atomic_load_n(&sends, __ATOMIC_RELAXED) < before + 1000) {}
    ends = 1;
    for (int i = 0; i < SENDERS; i++) pthread_join(threads[i], NULL);
    printf("%lu %lu %.2f\n", sends, wrong, took);
    [pool release];
    return 0;
}
