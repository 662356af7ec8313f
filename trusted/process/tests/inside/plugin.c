/* A plug-in that has the library inside, as yeldrost-static gives it. */
#include <msg_process.h>

uint32_t ask(void)
{
    uint32_t imp, fault = msg_process_start(NULL);
    msg_runtime *runtime;
    if (!fault) fault = msg_process_lock(&runtime);
    if (fault) return fault;
    fault = msg_make_root_class(runtime, 0);
    if (!fault) fault = msg_replace(runtime, 0, false, 1, 1);
    msg_process_unlock();
    return fault ? fault : msg_process_find(0, false, 1, &imp);
}
