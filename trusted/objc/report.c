/* What was done to caches, told at the end of a program that is started with MSG_REPORT=1, a line
 * for each field of msg_report_row. Trusted: nothing but its words. */
#include "shim.h"
#include <stdio.h>
#include <unistd.h>

enum { FEWEST = 4 }; /* entries of an array */

static void tell(FILE *to, const struct msg_report_row *report, uint32_t classes)
{
#define TELL(name, says) \
    fprintf(to, "objc: " #name " %llu: " says "\n", (unsigned long long)report->name)
    fprintf(to, "objc: report of process %ld\n", (long)getpid());
    fprintf(to, "objc: classes %u of %u: more by MSG_CLASSES\n", classes, shim_class_room);
    TELL(fills, "entries that were stored in caches");
    TELL(growths, "arrays that were installed for an entry");
    TELL(flushes, "classes whose array a change took away");
    TELL(retired, "arrays that were taken away, by a change or by a larger one");
    TELL(given_again, "arrays that were installed again");
    TELL(collections, "searches for arrays that nobody holds any more");
    TELL(freed, "arrays that became free by them");
    TELL(refused_senders, "senders that were asked for while all were out: more by MSG_SENDERS");
    for (size_t i = 0; i < sizeof report->no_array / sizeof *report->no_array; i++)
        fprintf(to,
                "objc: no_array %llu: entries that weren't cached, since no array of %u was free\n",
                (unsigned long long)report->no_array[i], FEWEST << i);
}

/* In one piece, since processes may end at once. A thread that ends the program with the lock, as
 * from a handler of a signal, tells nothing. */
void shim_report(void)
{
    msg_runtime *runtime;
    struct msg_report_row report;
    char *text = NULL;
    size_t length;
    if (msg_process_lock(&runtime)) return;
    uint32_t fault = msg_report(runtime, &report), classes = shim_class_count;
    msg_process_unlock();
    FILE *to = fault ? NULL : open_memstream(&text, &length);
    if (!to) return;
    tell(to, &report, classes);
    if (!fclose(to)) fputs(text, stderr);
    free(text);
}
