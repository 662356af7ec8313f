/* fork beside threads that send, change methods, make classes and lock objects: each child
 * sends, changes, makes a class, locks, and reads a property. */
#include "roots.h"
#include <pthread.h>
#include <signal.h>
#include <stdio.h>
#include <sys/wait.h>
#include <unistd.h>

enum { FORKS = 40, THREADS = 4, SECONDS = 60 };

__attribute__((objc_root_class)) @interface Base { Class isa; id kept; }
+ (int)value;
+ (int)other;
- (id)retain;
- (id)autorelease;
- (void)release;
@property(retain) id kept;
@end
@interface Fresh : Base
@end
@implementation Base
@synthesize kept;
+ (int)value { return 1; }
+ (int)other { return 2; }
- (id)retain { return self; }
- (id)autorelease { return self; }
- (void)release {}
@end
static int slowly_initialized;
@implementation Fresh
+ (void)initialize { slowly_initialized++; }
@end

static int one(id self, SEL sel) { return 1; }
static int three(id self, SEL sel) { return 3; }

static int stop;
static Base *shared;

static int goes_on(void) { return !__atomic_load_n(&stop, __ATOMIC_SEQ_CST); }

static void *sending(void *none)
{
    while (goes_on()) [Base value];
    return none;
}

static void *changing(void *none)
{
    while (goes_on())
        class_replaceMethod(objc_getMetaClass("Base"), @selector(value), (IMP)one, "i16@0:8");
    return none;
}

static void *making(void *none)
{
    for (int i = 0; goes_on(); i++) {
        char name[32];
        snprintf(name, sizeof name, "Made%d", i);
        Class class_ = objc_allocateClassPair(objc_getClass("Base"), name, 0);
        if (i < 100) objc_registerClassPair(class_);
        else objc_disposeClassPair(class_);
        sel_registerName(name[i % 7] ? name : "none");
        usleep(200);
    }
    return none;
}

static void *locking(void *none)
{
    id own = class_createInstance(objc_getClass("Base"), 0);
    while (goes_on()) {
        @synchronized(own) { shared.kept = own; }
        shared.kept = nil;
    }
    object_dispose(own);
    return none;
}

/* Nothing of the C library's that a lock of another thread's might stop. */
static int child(int locked_too)
{
    Class meta = objc_getMetaClass("Base");
    if ([Base other] != 2 || [Fresh other] != 2 || slowly_initialized != 1) return 1;
    class_replaceMethod(meta, @selector(value), (IMP)three, "i16@0:8");
    if ([Base value] != 3 || [Fresh value] != 3) return 2;
    Class made = objc_allocateClassPair(objc_getClass("Base"), "OfChild", 0);
    class_addMethod(made->isa, @selector(other), (IMP)three, "i16@0:8");
    objc_registerClassPair(made);
    if (((int (*)(id, SEL))objc_msg_lookup((id)made, @selector(other)))((id)made,
                                                                        @selector(other)) != 3)
        return 3;
    @synchronized(shared) { locked_too++; } /* within the forking thread's own */
    shared.kept = nil;
    return shared.kept != nil || locked_too < 1 ? 4 : 0;
}

static int hung, failed;

static void wait_for(pid_t child)
{
    int status = 0;
    for (int i = 0; i < SECONDS * 500; i++) {
        if (waitpid(child, &status, WNOHANG)) {
            failed += status != 0;
            return;
        }
        usleep(2000);
    }
    kill(child, SIGKILL);
    waitpid(child, &status, 0);
    hung++;
}

int main(void)
{
    static void *(*const runs[THREADS])(void *) = {sending, changing, making, locking};
    pthread_t threads[THREADS];
    shared = (Base *)class_createInstance(objc_getClass("Base"), 0);
    [Base value];
    [Base other];
    for (int i = 0; i < THREADS; i++) pthread_create(&threads[i], NULL, runs[i], NULL);
    for (int i = 0; i < FORKS; i++) {
        pid_t forked;
        usleep(137 * (i % 7));
        @synchronized(shared) {
            forked = fork();
            if (!forked) _exit(child(i % 2));
        }
        wait_for(forked);
    }
    __atomic_store_n(&stop, 1, __ATOMIC_SEQ_CST);
    for (int i = 0; i < THREADS; i++) pthread_join(threads[i], NULL);
    printf("of %d children %d hung, %d failed\n", FORKS, hung, failed);
    return 0;
}
