/* A program with as many messages to as many classes as a large one with windows: nothing that
 * it sends stays out of the shared caches. Over tables that have no arrays this says nothing. */
#include "calls.h"
#include <stdio.h>
#include <stdlib.h>
#include <string.h>
#include <sys/wait.h>
#include <unistd.h>

enum { MOST_SENT = 600 };

/* So many classes, each of which is sent so many different messages: they fill an array of 64
 * entries, of 128, .. */
static const struct {
    int classes, sent;
} kinds[] = {{110, 38}, {56, 76}, {28, 152}, {14, 304}, {7, MOST_SENT}};

static SEL sels[MOST_SENT];

static id answer(id self, SEL sel, ...) { (void)sel; return self; }

static Class make(int kind, int number)
{
    char name[32];
    snprintf(name, sizeof name, "Made%d_%d", kind, number);
    Class class_ = objc_allocateClassPair(objc_getClass("Object"), name, 0);
    for (int i = 0; i < kinds[kind].sent; i++) class_addMethod(class_, sels[i], answer, "@16@0:8");
    objc_registerClassPair(class_);
    return class_;
}

static void send_all(void)
{
    for (int i = 0; i < MOST_SENT; i++) {
        char name[32];
        snprintf(name, sizeof name, "message%d", i);
        sels[i] = sel_registerName(name);
    }
    for (int kind = 0; kind < (int)(sizeof kinds / sizeof *kinds); kind++)
        for (int number = 0; number < kinds[kind].classes; number++) {
            id object = class_createInstance(make(kind, number), 0);
            for (int i = 0; i < kinds[kind].sent; i++)
                objc_msg_lookup(object, sels[i])(object, sels[i]);
            object_dispose(object);
        }
}

/* What a child's report says that wasn't cached. */
static int tell_uncached(FILE *report)
{
    char line[256];
    unsigned long long number;
    int lines = 0;
    while (fgets(line, sizeof line, report)) {
        if (sscanf(line, "objc: no_array %llu", &number) != 1) continue;
        lines++;
        if (number) printf("%s", line);
    }
    return lines;
}

int main(int count, char **words)
{
    int ends[2];
    if (count > 1) {
        send_all();
        return 0;
    }
    if (pipe(ends)) abort();
    pid_t child = fork();
    if (!child) {
        setenv("MSG_REPORT", "1", 1);
        dup2(ends[1], STDERR_FILENO);
        execl("/proc/self/exe", words[0], "child", NULL);
        _exit(1);
    }
    close(ends[1]);
    FILE *report = fdopen(ends[0], "r");
    printf("told of %d sizes\n", tell_uncached(report));
    fclose(report);
    waitpid(child, NULL, 0);
    return 0;
}
