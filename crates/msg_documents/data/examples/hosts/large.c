/* A large process: 60,000 classes made at run time, 120,000 methods, 200,000 changes and 1,024
 * senders, each lookup compared with a plain model. What it took goes to standard error. */
#define _POSIX_C_SOURCE 200809L
#include "msg_runtime.h"
#include <stdio.h>
#include <stdlib.h>
#include <time.h>
#include <unistd.h>

enum { NUMBERS = 65536, CLASSES = 60000, SENDERS = 1024, SELECTORS = 97, CHANGES = 200000 };

static msg_runtime runtime = MSG_RUNTIME_INIT;
static uint64_t changes;

static void done(const char *what, uint32_t answer)
{
    if (answer == MSG_DONE) return;
    printf("%s: %u\n", what, answer);
    exit(1);
}

static void same(const char *what, uint32_t found, uint32_t wanted)
{
    if (found == wanted) return;
    printf("%s: %u, not %u\n", what, found, wanted);
    exit(1);
}

static double now(void)
{
    struct timespec at;
    clock_gettime(CLOCK_PROCESS_CPUTIME_ID, &at);
    return 1e6 * (double)at.tv_sec + 1e-3 * (double)at.tv_nsec;
}

static long resident(void) /* KiB */
{
    long pages = 0, all = 0;
    FILE *file = fopen("/proc/self/statm", "r");
    if (file && fscanf(file, "%ld %ld", &all, &pages) != 2) pages = 0;
    if (file) fclose(file);
    return pages * (sysconf(_SC_PAGESIZE) / 1024);
}

static uint32_t drawn; /* numbers that look random, the same in each run */
static uint32_t below(uint32_t limit)
{
    drawn = drawn * 1664525u + 1013904223u;
    return (uint32_t)((uint64_t)drawn * limit >> 32);
}

/* ---- the plain model: of each class and metaclass its rows, the chain walked row by row ---- */

typedef struct row { uint32_t sel, imp; struct row *next; } row;
static row *rows[2 * NUMBERS];

static uint32_t slot(uint32_t number, bool meta) { return 2 * number + meta; }

/* Class 0 is the root, and class k stands under (k - 1) / 2. The root's metaclass stands under the
 * root itself. */
static bool above(uint32_t *number, bool *meta)
{
    if (*number) *number = (*number - 1) / 2;
    else if (*meta) *meta = false;
    else return false;
    return true;
}

static row *own(uint32_t at, uint32_t sel)
{
    row *found = rows[at];
    while (found && found->sel != sel) found = found->next;
    return found;
}

static row *method(uint32_t number, bool meta, uint32_t sel)
{
    do {
        row *found = own(slot(number, meta), sel);
        if (found) return found;
    } while (above(&number, &meta));
    return NULL;
}

static uint32_t model(uint32_t number, bool meta, uint32_t sel)
{
    row *found = method(number, meta, sel);
    return found ? found->imp : 0;
}

static void put(uint32_t at, uint32_t sel, uint32_t imp)
{
    row *there = own(at, sel);
    if (!there) {
        there = malloc(sizeof *there);
        if (!there) exit(2);
        *there = (row){sel, 0, rows[at]};
        rows[at] = there;
    }
    there->imp = imp;
}

/* ---- the changes ---- */

static void make(uint32_t number)
{
    msg_method methods = {1 + number % SELECTORS, 1 + number};
    msg_method class_methods = {1 + number % 89, NUMBERS + number};
    done("make", number ? msg_make_class(&runtime, number, (number - 1) / 2)
                        : msg_make_root_class(&runtime, number));
    done("attach", msg_attach(&runtime, number, &methods, 1, &class_methods, 1));
    put(slot(number, false), methods.sel, methods.imp);
    put(slot(number, true), class_methods.sel, class_methods.imp);
    changes += 2;
}

static void replace(uint32_t number, bool meta, uint32_t sel, uint32_t imp)
{
    done("replace", msg_replace(&runtime, number, meta, sel, imp));
    put(slot(number, meta), sel, imp);
    changes++;
}

static void set(uint32_t number, bool meta, uint32_t sel, uint32_t imp)
{
    row *there = method(number, meta, sel);
    uint32_t answer = msg_set_imp(&runtime, number, meta, sel, imp);
    same("set", answer, there ? MSG_DONE : MSG_NO_METHOD);
    if (!there) return;
    there->imp = imp;
    changes++;
}

static void exchange(uint32_t number, uint32_t sel, uint32_t other, uint32_t other_sel)
{
    row *first = method(number, false, sel), *second = method(other, false, other_sel);
    uint32_t answer = msg_exchange(&runtime, number, false, sel, other, false, other_sel);
    same("exchange", answer, first && second ? MSG_DONE : MSG_NO_METHOD);
    if (!first || !second) return;
    uint32_t imp = first->imp;
    first->imp = second->imp;
    second->imp = imp;
    changes++;
}

static void change(void)
{
    uint32_t number = below(CLASSES), sel = 1 + below(SELECTORS);
    switch (below(3)) {
    case 0: replace(number, below(2), sel, 1 + below(1u << 30)); break;
    case 1: set(number, below(2), sel, 1 + below(1u << 30)); break;
    default: exchange(number, sel, below(CLASSES), 1 + below(SELECTORS));
    }
}

/* ---- the lookups ---- */

static msg_sender *senders;
static const uint64_t *words;

static uint32_t sent(msg_sender *sender, uint32_t number, bool meta, uint32_t sel)
{
    uint32_t imp = 0, noted = msg_recall_inline(sender, words, slot(number, meta), sel);
    uint32_t answer = msg_probe(sender, number, meta, sel, &imp);
    if (answer == MSG_MISSED) answer = msg_fill(&runtime, sender, number, meta, sel, &imp);
    done("send", answer);
    if (noted) same("what was noted", noted, imp);
    return imp;
}

/* Where a note says that its class's stamp lies, that is. */
static void compare_stamp(msg_sender *sender, uint32_t number, bool meta, uint32_t sel)
{
    uint64_t stamp = 0;
    uint64_t key = msg_key(slot(number, meta), sel);
    const msg_note *note = MSG_NOTE_OF(sender, key);
    if (msg_said(note, key) > MSG_SAID_NONE) note = MSG_SECOND_NOTE_OF(sender, key);
    done("stamp", msg_stamp(sender, number, meta, &stamp));
    if (msg_stamp_of(words, note) != stamp) puts("a note says the stamp of another class");
}

static void look(msg_sender *sender)
{
    uint32_t number = below(CLASSES), sel = 1 + below(SELECTORS), imp;
    bool meta = below(2);
    same("a send", sent(sender, number, meta, sel), model(number, meta, sel));
    compare_stamp(sender, number, meta, sel);
    done("lookup", msg_lookup(&runtime, number, meta, sel, &imp));
    same("a lookup", imp, model(number, meta, sel));
}

static double make_all(uint32_t from, uint32_t until)
{
    double begun = now();
    for (uint32_t number = from; number < until; number++) make(number);
    return now() - begun;
}

int main(void)
{
    msg_config config = {NUMBERS, SENDERS, {0, 0, 0, 0, 0, 0, 0, 0, 0}};
    long before = resident();
    double begun = now();
    done("open", msg_open(&runtime, &config));
    done("words", msg_words(&runtime, &words));
    double took = now() - begun;
    long taken = resident() - before;
    fprintf(stderr, "opened in %.1f ms, %ld KiB\n", 1e-3 * took, taken);
    /* 96 bytes a class number, 6 MiB, and 1.7 MiB for arrays. Of the 96 its two stamps take 32, in
     * the shared words and in the copy of them that is kept under the lock. */
    if (taken > 10240) puts("opening took more than 10 MiB");

    make_all(0, 1000);
    double first = make_all(1000, 2000), rest = make_all(2000, CLASSES - 1000);
    double last = make_all(CLASSES - 1000, CLASSES);
    fprintf(stderr, "a class with two methods: the second thousand %.2f us each, the last %.2f; "
                    "all in %.0f ms\n", 1e-3 * first, 1e-3 * last, 1e-3 * rest);
    if (last > 20 * first) puts("the last thousand classes took over twenty times the second");
    uint32_t imp;
    done("the last number", msg_lookup(&runtime, NUMBERS - 1, false, 1, &imp));
    same("a class that isn't made", imp, 0);
    same("no number", msg_lookup(&runtime, NUMBERS, false, 1, &imp), MSG_NO_CLASS);
    same("no class to change", msg_add(&runtime, NUMBERS - 1, false, 1, 1), MSG_NO_SUCH_CLASS);

    senders = calloc(SENDERS, sizeof *senders);
    if (!senders) exit(2);
    for (int sender = 0; sender < SENDERS; sender++)
        done("sender", msg_sender_open(&runtime, &senders[sender]));
    msg_sender *one_more = calloc(1, sizeof *one_more);
    if (!one_more) exit(2);
    same("one sender more", msg_sender_open(&runtime, one_more), MSG_NO_SENDER);
    for (int sender = 0; sender < SENDERS; sender++)
        for (int round = 0; round < 20; round++) look(&senders[sender]);

    begun = now();
    while (changes < CHANGES) {
        change();
        if (changes % 2 == 0) look(&senders[below(SENDERS)]);
    }
    fprintf(stderr, "replacements, sets and exchanges with a compared lookup beside every other: "
                    "%.2f us each\n", (now() - begun) / (CHANGES - 2 * CLASSES));
    for (int sender = 0; sender < SENDERS; sender++) look(&senders[sender]);
    uint64_t count;
    done("count", msg_change_count(&runtime, &count));
    same("changes", (uint32_t)count, CHANGES);

    done("a sender goes", msg_sender_close(&runtime, &senders[SENDERS / 2]));
    done("and another comes", msg_sender_open(&runtime, one_more));
    look(one_more);
    done("it goes, too", msg_sender_close(&runtime, one_more));
    free(one_more);
    printf("%d classes, %d changes, %d senders: as the model says\n", CLASSES, CHANGES, SENDERS);
    return 0;
}
