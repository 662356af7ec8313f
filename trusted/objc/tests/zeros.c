/* What a program takes that sends a message: the tables that were opened are zeros nearly all,
 * which aren't resident. */
#include "modules.h"

enum { MOST = 1024 }; /* KiB, of memory that is no file's */

static long resident(void)
{
    char line[128];
    long found = -1;
    FILE *status = fopen("/proc/self/status", "r");
    while (status && fgets(line, sizeof line, status)) sscanf(line, "RssAnon: %ld", &found);
    if (status) fclose(status);
    return found;
}

int main(void)
{
    take();
    id object = class_createInstance(&root, 0);
    printf("sent %ld, ", send(object, sel_registerName("one")));
    object_dispose(object);
    long found = resident();
#ifdef SANITIZED
    found = 0; /* it takes more itself */
#endif
    if (found <= MOST) printf("little is resident\n");
    else printf("%ld KiB are resident\n", found);
    return 0;
}
