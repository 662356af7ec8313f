/* A fork within +initialize, which the one of a class below waits for: in the child, too, no other
 * thread uses that class before its +initialize is over. */
#include "roots.h"
#include <pthread.h>
#include <stdio.h>
#include <sys/wait.h>
#include <unistd.h>

enum { MOMENT = 100000, PATIENCE = 60, EARLY = 5, DONE = 7 };

static int value, begun, answers[2];
static pid_t child;
static pthread_t beside;

__attribute__((objc_root_class)) @interface Base { Class isa; }
+ (int)value;
@end
@interface Below : Base
@end

static void *send_beside(void *answer)
{
    __atomic_store_n(&begun, 1, __ATOMIC_SEQ_CST);
    *(int *)answer = [Below value];
    return NULL;
}

@implementation Base
+ (void)initialize
{
    child = fork();
    if (!child) alarm(PATIENCE);
    pthread_create(&beside, NULL, send_beside, &answers[1]);
    while (!__atomic_load_n(&begun, __ATOMIC_SEQ_CST)) usleep(1000);
    usleep(MOMENT);
    value = EARLY;
}
+ (int)value { return value; }
@end
@implementation Below
+ (void)initialize
{
    usleep(MOMENT);
    value = DONE;
}
@end

int main(void)
{
    int status = -1;
    answers[0] = [Below value];
    pthread_join(beside, NULL);
    int wrong = (answers[0] != DONE) + (answers[1] != DONE);
    if (!child) _exit(wrong);
    waitpid(child, &status, 0);
    printf("wrong %d, in the child %d\n", wrong, status);
    return 0;
}
