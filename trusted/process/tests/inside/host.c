/* A thread that has sent through a plug-in closes it, and ends. The library's call at a thread's
 * end, which is inside the plug-in, has to be there still. */
#include <dlfcn.h>
#include <pthread.h>
#include <stdint.h>
#include <stdio.h>

static void *work(void *path)
{
    void *plugin = dlopen(path, RTLD_NOW);
    uint32_t (*ask)(void) = plugin ? (uint32_t(*)(void))dlsym(plugin, "ask") : NULL;
    if (!ask || ask()) return NULL;
    dlclose(plugin);
    return path;
}

int main(int argc, char **words)
{
    pthread_t thread;
    void *ended = NULL;
    if (argc == 2 && !pthread_create(&thread, NULL, work, words[1])) pthread_join(thread, &ended);
    puts(ended ? "closed, and the thread has ended" : dlerror());
    return !ended;
}
