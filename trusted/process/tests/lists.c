/* What include/msg_runtime.h says of lists of changes: all or nothing, the first fault and its
 * place, one more change, each kind as the call of its name, the way back, and what is reached. */
#define MSG_PATIENCE 1
#include "msg_runtime.h"
#include <signal.h>
#include <stdio.h>
#include <sys/wait.h>
#include <unistd.h>

enum { ROOT, CHILD, MADE, CLASSES = 8, ONE = 1, TWO, NOBODYS, COUNT_IN = 7 };

static int wrong;
static msg_runtime runtime = MSG_RUNTIME_INIT;
static msg_sender sender;

static void want(int line, const char *what, uint64_t found, uint64_t wanted)
{
    if (found == wanted) return;
    wrong++;
    printf("lists.c:%d: %s is %llu, not %llu\n", line, what, (unsigned long long)found,
           (unsigned long long)wanted);
}
#define WANT(found, wanted) want(__LINE__, #found, found, wanted)

static uint32_t look(uint32_t number, bool meta, uint32_t sel)
{
    uint32_t imp = 0, filled = 0;
    WANT(msg_lookup(&runtime, number, meta, sel, &imp), MSG_DONE);
    WANT(msg_fill(&runtime, &sender, number, meta, sel, &filled), MSG_DONE);
    WANT(filled, imp);
    return imp;
}

static uint64_t changes(void)
{
    uint64_t count = 0;
    WANT(msg_change_count(&runtime, &count), MSG_DONE);
    return count;
}

static void made(void)
{
    const msg_change parts[] = {
        {.kind = MSG_MAKES_CLASS, .number = MADE, .other = CHILD},
        {.kind = MSG_ADDS, .number = MADE, .sel = ONE, .imp = 21},
        {.kind = MSG_REPLACES, .number = ROOT, .sel = ONE, .imp = 22},
        {.kind = MSG_REPLACES, .number = ROOT, .meta = 1, .sel = TWO, .imp = 23},
        /* where it is found: in the root */
        {.kind = MSG_SETS_IMP, .number = CHILD, .sel = ONE, .imp = 24},
        /* 21 with 23 */
        {.kind = MSG_EXCHANGES, .number = MADE, .sel = ONE, .other = MADE, .other_meta = 1,
         .other_sel = TWO},
        {.kind = MSG_SETS_IMP, .number = MADE, .sel = ONE, .imp = 25},
    };
    _Static_assert(sizeof parts / sizeof *parts == COUNT_IN, "as many");
    size_t place = 99;
    uint64_t before = changes();
    WANT(msg_change_all(&runtime, parts, COUNT_IN, &place), MSG_DONE);
    WANT(place, 99);
    WANT(changes(), before + 1);
    WANT(look(MADE, false, ONE), 25);
    WANT(look(ROOT, true, TWO), 21);
    WANT(look(MADE, true, TWO), 21);
    WANT(look(CHILD, false, ONE), 24);
    WANT(msg_change_all(&runtime, parts, 0, &place), MSG_DONE); /* of none: nothing is made */
    WANT(changes(), before + 1);
}

/* Behind a made class, two replaced methods and an added one, and before one that would be
 * refused. */
static void refused(msg_change last, uint32_t fault)
{
    const msg_change parts[] = {
        {.kind = MSG_MAKES_CLASS, .number = MADE + 1, .other = ROOT},
        {.kind = MSG_REPLACES, .number = ROOT, .sel = ONE, .imp = 31},
        {.kind = MSG_REPLACES, .number = ROOT, .sel = ONE, .imp = 32},
        {.kind = MSG_ADDS, .number = MADE + 1, .sel = NOBODYS, .imp = 33},
        last,
        {.kind = MSG_REPLACES, .number = CLASSES, .sel = ONE, .imp = 1}, /* would be refused too */
    };
    size_t place = 99;
    uint64_t before = changes();
    uint32_t one = look(ROOT, false, ONE);
    WANT(msg_change_all(&runtime, parts, 6, &place), fault);
    WANT(place, 4);
    WANT(changes(), before);
    WANT(look(ROOT, false, ONE), one);
    WANT(look(MADE + 1, false, NOBODYS), 0);
    msg_class above;
    WANT(msg_holder(&runtime, MADE + 1, false, ONE, &above), MSG_NONE);
}

static void all_refused(void)
{
    refused((msg_change){.kind = MSG_REPLACES, .number = CLASSES, .sel = ONE, .imp = 1},
            MSG_NO_SUCH_CLASS);
    refused((msg_change){.kind = MSG_REPLACES, .number = MADE + 2, .sel = ONE, .imp = 1},
            MSG_NO_SUCH_CLASS);
    refused((msg_change){.kind = MSG_REPLACES, .number = ROOT, .sel = ONE}, MSG_NO_SUCH_IMP);
    refused((msg_change){.kind = MSG_REPLACES, .number = ROOT, .imp = 1}, MSG_NO_SELECTOR);
    refused((msg_change){.kind = MSG_ADDS, .number = MADE + 1, .sel = NOBODYS, .imp = 1},
            MSG_METHOD_PRESENT); /* by the list itself */
    refused((msg_change){.kind = MSG_SETS_IMP, .number = ROOT, .sel = NOBODYS, .imp = 1},
            MSG_NO_METHOD);
    refused((msg_change){.kind = MSG_EXCHANGES, .number = ROOT, .sel = ONE, .other = ROOT,
                         .other_sel = NOBODYS},
            MSG_NO_METHOD);
    refused((msg_change){.kind = MSG_MAKES_CLASS, .number = MADE + 1, .other = ROOT},
            MSG_DUPLICATE_CLASS);
    refused((msg_change){.kind = MSG_MAKES_CLASS, .number = MADE + 2, .other = MADE + 3},
            MSG_NO_SUCH_CLASS);
    refused((msg_change){.kind = MSG_REMOVES, .number = MADE + 1, .sel = ONE}, MSG_NO_METHOD);
    refused((msg_change){.kind = MSG_REMOVES, .number = MADE + 1}, MSG_NO_SELECTOR);
    refused((msg_change){.kind = MSG_COVERS, .number = ROOT, .sel = ONE}, MSG_NO_SUCH_IMP);
    refused((msg_change){.kind = MSG_DISPOSES_CLASS, .number = ROOT}, MSG_CLASS_IN_USE);
    refused((msg_change){.kind = MSG_DISPOSES_CLASS, .number = MADE + 2}, MSG_NO_SUCH_CLASS);
    refused((msg_change){.kind = 0}, MSG_BAD_CHANGE);
    refused((msg_change){.kind = MSG_COVERS + 1}, MSG_BAD_CHANGE);
    refused((msg_change){.kind = MSG_REPLACES, .number = ROOT, .meta = 2, .sel = ONE, .imp = 1},
            MSG_BAD_CHANGE);
}

/* Two replaced methods and an exchange of them, taken back; the same with a method that is
 * added and another that is removed. */
static void undone(void)
{
    const msg_change parts[] = {
        {.kind = MSG_REPLACES, .number = ROOT, .sel = ONE, .imp = 41},
        {.kind = MSG_SETS_IMP, .number = ROOT, .meta = 1, .sel = TWO, .imp = 42},
        {.kind = MSG_EXCHANGES, .number = ROOT, .sel = ONE, .other = ROOT, .other_meta = 1,
         .other_sel = TWO},
        {.kind = MSG_ADDS, .number = ROOT, .sel = NOBODYS, .imp = 43},
        {.kind = MSG_REMOVES, .number = ROOT, .sel = ONE},
    };
    msg_change back[8];
    size_t place = 99, count = 99;
    uint64_t before = changes();
    uint32_t one = look(CHILD, false, ONE), two = look(ROOT, true, TWO);
    WANT(msg_change_all_with_undo(&runtime, parts, 3, back, 3, &count, &place), MSG_NO_ROOM);
    WANT(count, 4);
    WANT(changes(), before);
    WANT(msg_change_all_with_undo(&runtime, parts, 3, back, 4, &count, &place), MSG_DONE);
    WANT(count, 4);
    WANT(changes(), before + 1);
    WANT(look(CHILD, false, ONE), 42);
    WANT(look(ROOT, true, TWO), 41);
    WANT(msg_change_all(&runtime, back, count, &place), MSG_DONE);
    WANT(changes(), before + 2);
    WANT(look(CHILD, false, ONE), one);
    WANT(look(ROOT, true, TWO), two);
    WANT(msg_change_all_with_undo(&runtime, parts, 5, back, 8, &count, &place), MSG_DONE);
    WANT(count, 6);
    WANT(look(CHILD, false, NOBODYS), 43);
    WANT(look(CHILD, false, ONE), 0);
    WANT(msg_change_all(&runtime, back, count, &place), MSG_DONE);
    WANT(look(CHILD, false, NOBODYS), 0);
    WANT(look(CHILD, false, ONE), one);
    WANT(look(ROOT, true, TWO), two);
}

/* A class with covered methods, and one below it, go and come back; and so does what took them
 * back. */
static void disposed(void)
{
    const msg_change makes[] = {
        {.kind = MSG_MAKES_CLASS, .number = MADE + 2, .other = MADE},
        {.kind = MSG_ADDS, .number = MADE + 2, .sel = ONE, .imp = 61},
        {.kind = MSG_COVERS, .number = MADE + 2, .sel = ONE, .imp = 62},
        {.kind = MSG_COVERS, .number = MADE + 2, .meta = 1, .sel = TWO, .imp = 63},
        {.kind = MSG_MAKES_CLASS, .number = MADE + 3, .other = MADE + 2},
    };
    const msg_change goes[] = {{.kind = MSG_DISPOSES_CLASS, .number = MADE + 3},
                               {.kind = MSG_DISPOSES_CLASS, .number = MADE + 2}};
    const msg_change covered[] = {{.kind = MSG_REMOVES, .number = MADE + 2, .sel = ONE}};
    msg_change away[8], back[8], again[8];
    size_t place = 99, gone = 99, count = 99;
    uint32_t above = look(MADE, false, ONE);
    WANT(msg_change_all_with_undo(&runtime, makes, 5, away, 8, &count, &place), MSG_DONE);
    WANT(count, 5);
    WANT(look(MADE + 3, false, ONE), 62);
    WANT(msg_change_all_with_undo(&runtime, goes, 2, back, 4, &gone, &place), MSG_NO_ROOM);
    WANT(gone, 5);
    WANT(msg_change_all_with_undo(&runtime, goes, 2, back, 8, &gone, &place), MSG_DONE);
    WANT(look(MADE + 3, false, ONE), 0);
    WANT(look(MADE + 2, true, TWO), 0);
    WANT(msg_change_all_with_undo(&runtime, back, gone, again, 8, &gone, &place), MSG_DONE);
    WANT(gone, 5);
    WANT(look(MADE + 3, false, ONE), 62);
    WANT(look(MADE + 3, true, TWO), 63);
    WANT(msg_change_all_with_undo(&runtime, covered, 1, back, 8, &gone, &place), MSG_DONE);
    WANT(look(MADE + 3, false, ONE), 61);
    WANT(msg_change_all(&runtime, back, gone, &place), MSG_DONE);
    WANT(look(MADE + 3, false, ONE), 62);
    WANT(msg_change_all(&runtime, away, count, &place), MSG_DONE);
    WANT(look(MADE + 3, false, ONE), 0);
    WANT(look(MADE, false, ONE), above);
    WANT(msg_make_root_class(&runtime, MADE + 3), MSG_DONE); /* the number is free again */
    WANT(look(MADE + 3, false, ONE), 0);
    WANT(msg_dispose_class(&runtime, MADE + 3), MSG_DONE);
    WANT(msg_remove(&runtime, MADE + 1, false, NOBODYS), MSG_NO_METHOD);
}

/* As slots: of a root with its child and the child's, all three and their metaclasses, for a
 * method of the root stands for metaclasses too. */
static void reached(void)
{
    const msg_change parts[] = {
        {.kind = MSG_REPLACES, .number = MADE, .sel = TWO, .imp = 51},
        {.kind = MSG_MAKES_CLASS, .number = MADE + 2, .other = MADE},
        /* found at the root's metaclass */
        {.kind = MSG_SETS_IMP, .number = CHILD, .meta = 1, .sel = TWO, .imp = 52},
        {.kind = MSG_ADDS, .number = MADE + 2, .sel = TWO, .imp = 53},
        {.kind = MSG_ADDS, .number = MADE + 2, .sel = TWO, .imp = 54}, /* refused */
    };
    bool found[2 * CLASSES] = {false};
    const bool wanted[2 * CLASSES] = {
        [2 * ROOT + 1] = true, [2 * CHILD + 1] = true, [2 * MADE] = true, [2 * MADE + 1] = true,
        [2 * (MADE + 1) + 1] = true, [2 * (MADE + 2)] = true, [2 * (MADE + 2) + 1] = true};
    size_t place = 99;
    uint64_t before = changes();
    WANT(msg_reach(&runtime, parts, 4, found, 2 * CLASSES - 1, &place), MSG_NO_ROOM);
    WANT(msg_reach(&runtime, parts, 4, found, 2 * CLASSES, &place), MSG_DONE);
    for (size_t slot = 0; slot < 2 * CLASSES; slot++) WANT(found[slot], wanted[slot]);
    WANT(msg_reach(&runtime, parts, 5, found, 2 * CLASSES, &place), MSG_METHOD_PRESENT);
    WANT(place, 4);
    WANT(changes(), before);
    msg_class above;
    WANT(msg_holder(&runtime, MADE + 2, false, TWO, &above), MSG_NONE); /* not made */
}

/* A slice of length 0 may be NULL. */
static void of_nothing(void)
{
    bool found[2 * CLASSES] = {false};
    size_t place = 99, undone = 99;
    uint64_t before = changes();
    WANT(msg_change_all(&runtime, NULL, 0, &place), MSG_DONE);
    WANT(msg_change_all_with_undo(&runtime, NULL, 0, NULL, 0, &undone, &place), MSG_DONE);
    WANT(undone, 0);
    WANT(changes(), before);
    WANT(msg_reach(&runtime, NULL, 0, found, 2 * CLASSES, &place), MSG_DONE);
    for (size_t slot = 0; slot < 2 * CLASSES; slot++) WANT(found[slot], false);
    WANT(place, 99);
    WANT(msg_attach(&runtime, ROOT, NULL, 0, NULL, 0), MSG_DONE);
    WANT(changes(), before + 1);
}

/* A find by a thread that holds the lock would wait for itself: MSG_CHECK tells it. */
static void held(void)
{
    pthread_mutex_t lock = PTHREAD_MUTEX_INITIALIZER;
    uint32_t imp;
    int status = 0;
    pthread_mutex_lock(&lock);
    fflush(stdout);
    pid_t child = fork();
    if (!child) {
        fclose(stderr);
        msg_find(&runtime, &lock, &sender, CHILD, false, NOBODYS + 1000, &imp);
        _exit(0);
    }
    WANT(waitpid(child, &status, 0), (uint64_t)child);
    WANT(WIFSIGNALED(status) && WTERMSIG(status) == SIGABRT, 1);
    pthread_mutex_unlock(&lock);
}

int main(void)
{
    size_t place = 99;
    const msg_change makes = {.kind = MSG_MAKES_ROOT_CLASS};
    WANT(msg_change_all(&runtime, &makes, 1, &place), MSG_CLOSED);
    WANT(place, 99);
    WANT(msg_open(&runtime, &(msg_config){.classes = CLASSES}), MSG_DONE);
    WANT(msg_sender_open(&runtime, &sender), MSG_DONE);
    const msg_change first[] = {{.kind = MSG_MAKES_ROOT_CLASS, .number = ROOT},
                                {.kind = MSG_MAKES_CLASS, .number = CHILD, .other = ROOT}};
    WANT(msg_change_all(&runtime, first, 2, &place), MSG_DONE);
    made();
    all_refused();
    WANT(msg_make_class(&runtime, MADE + 1, ROOT), MSG_DONE);
    WANT(look(MADE + 1, false, ONE), 24);
    undone();
    disposed();
    reached();
    of_nothing();
    held();
    printf("lists: %d wrong\n", wrong);
    return wrong != 0;
}
