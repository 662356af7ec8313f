/* A program that is started with MSG_REPORT=1 tells at its end what was done to caches, on its
 * standard error; one that is started otherwise tells nothing. */
#include "calls.h"
#include <pthread.h>
#include <stdio.h>
#include <stdlib.h>
#include <string.h>
#include <sys/wait.h>
#include <unistd.h>

enum { SENDS = 20, THREADS = 1100, FINDS = 100 }; /* that many of a thread, and it has a sender */

static const char *const values[] = {"1", "0", "", NULL};

static id answer(id self, SEL sel, ...) { (void)sel; return self; }

static pthread_barrier_t all_are_there;

static void *find_often(void *made)
{
    bool found = true;
    for (int i = 0; i < FINDS; i++)
        found &= class_getMethodImplementation(made, sel_registerName("message-a")) == answer;
    pthread_barrier_wait(&all_are_there);
    return found ? made : NULL;
}

static void find_in_threads(Class made)
{
    static pthread_t threads[THREADS];
    pthread_attr_t small;
    pthread_attr_init(&small);
    pthread_attr_setstacksize(&small, 1 << 17);
    pthread_barrier_init(&all_are_there, NULL, THREADS);
    for (int i = 0; i < THREADS; i++)
        if (pthread_create(&threads[i], &small, find_often, made)) abort();
    for (int i = 0; i < THREADS; i++) {
        void *found;
        pthread_join(threads[i], &found);
        if (found != made) printf("thread %d: not found\n", i);
    }
}

/* As many messages of another name each, to a class that is made here; and one by each thread. */
static void send_all(void)
{
    Class made = objc_allocateClassPair(objc_getClass("Object"), "Made", 0);
    objc_registerClassPair(made);
    id object = class_createInstance(made, 0);
    for (int i = 0; i < SENDS; i++) {
        char name[] = "message-a";
        name[strlen(name) - 1] = (char)('a' + i);
        SEL sel = sel_registerName(name);
        class_addMethod(made, sel, answer, "@16@0:8");
        if (objc_msg_lookup(object, sel)(object, sel) != object) printf("%s: not found\n", name);
    }
    object_dispose(object);
    find_in_threads(made);
}

static bool is_known(const char *name)
{
    return !strcmp(name, "classes") || !strcmp(name, "no_array") ||
           !strcmp(name, "refused_senders");
}

/* The number of a line is told where it is known, and else whether it may be. */
static void tell(const char *line, pid_t of)
{
    char name[32];
    unsigned long long number;
    int end = 0;
    if (sscanf(line, "objc: report of process %llu", &number) == 1)
        printf("the process %s\n", number == (unsigned long long)of ? "itself" : "is another");
    else if (sscanf(line, "objc: %31s %llu%n", name, &number, &end) != 2)
        printf("not read: %s", line);
    else if (!strcmp(name, "fills"))
        printf("%s %s%s", name, number >= SENDS ? "enough" : "too few", line + end);
    else if (is_known(name))
        printf("%s %llu%s", name, number, line + end);
    else
        printf("%s%s", name, line + end);
}

static void start(const char *value, char **words)
{
    int ends[2];
    char line[256];
    printf("%s:\n", value ? value : "not set");
    fflush(stdout);
    if (pipe(ends)) abort();
    pid_t child = fork();
    if (!child) {
        if (value) setenv("MSG_REPORT", value, 1);
        else unsetenv("MSG_REPORT");
        dup2(ends[1], STDERR_FILENO);
        execl("/proc/self/exe", words[0], "child", NULL);
        _exit(1);
    }
    close(ends[1]);
    FILE *told = fdopen(ends[0], "r");
    while (fgets(line, sizeof line, told)) tell(line, child);
    fclose(told);
    waitpid(child, NULL, 0);
}

int main(int count, char **words)
{
    if (count > 1) send_all();
    for (size_t i = 0; count == 1 && i < sizeof values / sizeof *values; i++)
        start(values[i], words);
    return 0;
}
