/* Asks openvpn-auth-ldap, which uses libobjc alone, as OpenVPN does:   ldap PLUGIN CONFIGURATION
 * [USER PASSWORD].. It prints what the plug-in answers. */
#include <dlfcn.h>
#include <stdio.h>

enum { VERIFY = 5, MOST = 64 }; /* OPENVPN_PLUGIN_AUTH_USER_PASS_VERIFY */

static int ask(int (*func)(void *, int, const char **, const char **), void *handle,
               const char *user, const char *password)
{
    static char name[MOST], secret[MOST];
    snprintf(name, sizeof name, "username=%s", user);
    snprintf(secret, sizeof secret, "password=%s", password);
    const char *environment[] = {name, secret, "ifconfig_pool_remote_ip=10.0.0.1", NULL};
    const char *words[] = {"ldap", NULL};
    return func(handle, VERIFY, words, environment);
}

int main(int count, char **words)
{
    void *plugin = count > 2 ? dlopen(words[1], RTLD_NOW) : NULL;
    if (!plugin)
        return printf("not loaded: %s\n", count > 2 ? dlerror() : "PLUGIN CONFIGURATION"), 1;
    void *(*open)(unsigned *, const char **, const char **) =
        (void *(*)(unsigned *, const char **, const char **))dlsym(plugin,
                                                                   "openvpn_plugin_open_v1");
    int (*func)(void *, int, const char **, const char **) =
        (int (*)(void *, int, const char **, const char **))dlsym(plugin, "openvpn_plugin_func_v1");
    void (*close)(void *) = (void (*)(void *))dlsym(plugin, "openvpn_plugin_close_v1");
    const char *given[] = {words[1], words[2], NULL}, *none[] = {NULL};
    unsigned mask = 0;
    void *handle = open(&mask, given, none);
    printf("%s, mask %x\n", handle ? "opened" : "refused", mask);
    for (int i = 3; handle && i + 1 < count; i += 2)
        printf("%s: %d\n", words[i], ask(func, handle, words[i], words[i + 1]));
    if (handle) close(handle);
    return 0;
}
