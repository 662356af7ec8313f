/* A program in C, with threads, that loads a plug-in in Objective-C, closes it and loads it again,
 * as a server does that is told to read its configuration anew; and forks before and after. */
#include <dlfcn.h>
#include <pthread.h>
#include <stdio.h>
#include <sys/wait.h>
#include <unistd.h>

enum { TIMES = 3 };

static _Atomic(int (*)(void)) plug;
static _Atomic int stop;

/* It was there before the plug-in. */
static void *use(void *answer)
{
    while (!plug && !stop) usleep(100);
    *(int *)answer = plug ? plug() : -1;
    return NULL;
}

static int forked(int asks)
{
    int status = -1;
    pid_t child = fork();
    if (!child) _exit(!asks || plug() == 41 ? 0 : 1);
    waitpid(child, &status, 0);
    return status;
}

static void once(const char *path)
{
    int answer = 0;
    pthread_t thread;
    pthread_create(&thread, NULL, use, &answer);
    void *handle = dlopen(path, RTLD_NOW | RTLD_LOCAL);
    if (!handle) printf("%s\n", dlerror());
    stop = !handle;
    plug = handle ? (int (*)(void))dlsym(handle, "plug") : NULL;
    int (*plug_throw)(void) = handle ? (int (*)(void))dlsym(handle, "plug_throw") : NULL;
    pthread_join(thread, NULL);
    printf("answered %d, thrown %d, in a child %d\n", answer, plug_throw ? plug_throw() : -1,
           plug ? forked(1) : -1);
    plug = NULL;
    printf("closed %d, a child ends by %d\n", handle ? dlclose(handle) : -1, forked(0));
}

int main(int count, char **words)
{
    for (int i = 0; i < TIMES && count > 1; i++) once(words[1]);
    return 0;
}
