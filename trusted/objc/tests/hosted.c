/* A program that has the layer for a process for itself, beside the shim's: each has its own
 * runtime, lock and senders, also in a forked child. */
#include "modules.h"
#define take take_lock /* both have one */
#include "../../process/msg_process.c"
#undef take
#include <sys/wait.h>
#include <unistd.h>

enum { CLASS, SELECTOR = 1, CLASSES = 4 };

static msg_runtime *mine;
static SEL first;
static int wrong;

static uint32_t find(void)
{
    uint32_t imp, fault = msg_process_find(CLASS, false, SELECTOR, &imp);
    return fault ? 1000 + fault : imp;
}

static void set(uint32_t imp)
{
    if (msg_process_lock(&mine) || msg_replace(mine, CLASS, false, SELECTOR, imp)) wrong++;
    /* of the other, while this lock is held */
    class_replaceMethod(&root_meta, first, imp % 2 ? one : two, "@16@0:8");
    if (send((id)&child, first) != (imp % 2 ? 11 : 12)) wrong++;
    msg_process_unlock();
    if (find() != imp) wrong++;
}

static void *run(void *none)
{
    for (uint32_t i = 1; i < 100; i++) set(i);
    return none;
}

static int forked(void)
{
    int status = 0;
    pid_t pid = fork();
    if (!pid) {
        run(NULL);
        _exit(wrong != 0);
    }
    waitpid(pid, &status, 0);
    return status;
}

int main(void)
{
    pthread_t thread;
    take();
    first = sel_registerName("one");
    if (msg_process_start(&(msg_config){.classes = CLASSES, .senders = 2}) ||
        msg_process_lock(&mine))
        return 1;
    if (msg_make_root_class(mine, CLASS)) return 1;
    msg_process_unlock();
    run(NULL);
    pthread_create(&thread, NULL, run, NULL);
    pthread_join(thread, NULL);
    printf("child %d, ", forked());
    printf("wrong %d\n", wrong);
    return 0;
}
