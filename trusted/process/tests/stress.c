/* Threads that find, change, make classes, fork, open and close senders at once, and handlers of
 * signals that find, for SECONDS. Step s of the history gives method s % METHODS the
 * implementation s. So an answer s says that the find was at a point from s until the step s +
 * METHODS: it has to have the method's remainder, to be no later than what was begun, and
 * METHODS + s has to be beyond each point that the thread has seen, and beyond each step that
 * had returned, whose lock may still be held. So no method goes back, and none lags behind
 * another. The methods stand in the roots of TREES trees, on both of their sides: what is cached
 * for one tree outlasts the changes of the others.
 *
 * Threads rest now and then, or go away. One asks what all have seen: from then on the steps that
 * it took away are gone. No find answers one, and no thread is in one that it found since it
 * rested.
 *
 * What is stored plainly before a change call, who finds what that change gave sees: else
 * ThreadSanitizer tells a race, too. And a thread may see it, inside the lock, while it still finds
 * what was before the change: such finds are counted. */
#define _GNU_SOURCE
#include "msg_process.h"
#include <errno.h>
#include <limits.h>
#include <sched.h>
#include <signal.h>
#include <stdatomic.h>
#include <stdio.h>
#include <stdlib.h>
#include <sys/wait.h>
#include <time.h>
#include <unistd.h>

enum { FINDERS = 16, CHANGERS = 4, BEGINNERS = 6, SENDERS = 26, CLASSES = 512, TREES = 4 };
enum { PLACES = 8, OF_A_PLACE = 3, METHODS = PLACES * OF_A_PLACE };
enum { PATIENCE = 200, CHILDS_PATIENCE = 60 };
#ifndef SECONDS
#define SECONDS 5
#endif

static atomic_bool is_over;
static atomic_long begun, returned, made, answers, held, handled, refused, ended, without, opened;
static atomic_long forked, ready, ahead, wrong, gone, rested;
enum { STORED = 1 << 20 };
static uint32_t before[STORED]; /* by steps: what is stored before a step's change call */
static atomic_ulong counts[STORED]; /* the count of changes after it */

static _Thread_local volatile long seen;
static _Thread_local volatile uint32_t drawn;
static _Thread_local volatile bool handles;
static _Thread_local long oldest = LONG_MAX; /* that the thread found since it rested */

static void tell(const char *what, long one, long other)
{
    char line[128];
    int length = snprintf(line, sizeof line, "%s: %ld, %ld\n", what, one, other);
    if (atomic_fetch_add(&wrong, 1) < 20 && write(2, line, (size_t)length) < 0) _exit(3);
}

static uint32_t below(uint32_t limit)
{
    drawn = drawn * 1664525u + 1013904223u;
    return (uint32_t)((uint64_t)drawn * limit >> 32);
}

/* Three methods of a class are noted at one place, which has two notes. */
static uint32_t selector(long method)
{
    return 1 + (uint32_t)method % PLACES + MSG_NOTES * ((uint32_t)method / PLACES);
}
static uint32_t root_of(long method) { return (uint32_t)method % TREES; }
static bool is_of_class(long method) { return method / TREES % 2; }
/* Whether what was stored before the step's change call is seen. */
static bool is_stored(long step)
{
    return step >= STORED || before[step] == step;
}

/* The class of the method's tree that is near the given one; 0 and so many are made. */
static uint32_t of_tree(uint32_t class_, long method)
{
    uint32_t is = class_ / TREES * TREES + root_of(method);
    return is < (uint32_t)made ? is : is - TREES;
}

/* A find, and whether its answer may be. With the lock, as perhaps in a handler, it may have
 * none. */
static void find(uint32_t class_, long method, bool may_hold)
{
    uint32_t imp;
    long least = returned, stored = begun;
    if (seen > least) least = seen;
    bool waits = !may_hold || below(2);
    uint32_t fault = (waits ? msg_process_find : msg_process_find_at_once)(
        of_tree(class_, method), is_of_class(method), selector(method), &imp);
    long most = begun, step = imp;
    if (fault == MSG_LOCK_HELD && may_hold) {
        held++;
        return;
    }
    if (fault) tell("fault, class", fault, class_);
    else if (step % METHODS != method) tell("another method's, method", step, method);
    else if (step + METHODS <= least) tell("older than what was seen, seen", step, least);
    else if (step > most) tell("newer than what was begun, begun", step, most);
    else if (!is_stored(step)) tell("without what was stored before it", step, 0);
    else if (step <= gone) tell("what is gone, gone", step, gone);
    else if (step > seen) seen = step;
    if (!fault && !handles && step < oldest) oldest = step;
    if (!fault && step + METHODS <= stored) ahead++;
}

/* The same by two classes, and by the second two methods of its place, or all three. Returns how
 * many finds that were. */
static int find_some(bool may_hold)
{
    long method = below(METHODS);
    uint32_t count = (uint32_t)made, class_ = below(8);
    int others = 1 + (int)below(OF_A_PLACE - 1);
    find(below(count), method, may_hold);
    for (int i = 0; i <= others; i++)
        find(class_, (method + i * PLACES) % METHODS, may_hold);
    return 2 + others;
}

static void want(uint32_t fault, uint32_t wanted)
{
    if (fault != wanted) tell("a call answers, wanted", fault, wanted);
}

static void rest(bool goes)
{
    if (oldest <= gone) tell("the thread is in what is gone, gone", oldest, gone);
    oldest = LONG_MAX;
    want(goes ? msg_process_away() : msg_process_rest(), MSG_DONE);
    rested++;
}

static void rest_at_times(void)
{
    if (!below(8)) rest(!below(8));
}

/* A thread's first find is outside of handlers. */
static void begin_thread(long number)
{
    drawn = (uint32_t)number * 2654435761u + 1;
    find_some(false);
    ready++;
}

static void *find_on(void *number)
{
    long count = 0;
    begin_thread((long)number);
    while (!is_over) {
        count += find_some(false);
        rest_at_times();
    }
    answers += count;
    return NULL;
}

/* The next steps, and a change that is refused. */
static void change(msg_runtime *runtime, int steps)
{
    for (int i = 0; i < steps; i++) {
        long step = ++begun, method = step % METHODS; /* under the lock */
        uint32_t root = root_of(method), sel = selector(method);
        bool meta = is_of_class(method);
        if (!is_stored(step)) before[step] = (uint32_t)step;
        uint64_t changes = 0;
        want(msg_replace(runtime, root, meta, sel, (uint32_t)step), MSG_DONE);
        want(msg_change_count(runtime, &changes), MSG_DONE);
        if (step < STORED) counts[step] = changes;
        returned = step; /* from here on each thread has to see it, though the lock is held */
        if (below(2)) msg_process_cache(msg_key(2 * root + meta, sel));
        seen = step;
        find(below(8), below(2) ? step % METHODS : below(METHODS), true);
    }
    if (below(3)) return;
    want(msg_replace(runtime, CLASSES, false, 1, 1), MSG_NO_SUCH_CLASS);
    refused++;
}

static long change_some(void)
{
    msg_runtime *runtime;
    want(msg_process_lock(&runtime), MSG_DONE);
    change(runtime, 1 + (int)below(3));
    long step = begun;
    msg_process_unlock();
    return step;
}

static void *change_on(void *number)
{
    begin_thread((long)number);
    while (!is_over) {
        long step = change_some();
        find_some(false);
        rest_at_times();
        if (step % 8 == 0) usleep(50);
    }
    return NULL;
}

/* Each class below one before it in its tree. */
static void *make_on(void *number)
{
    begin_thread((long)number);
    while (!is_over) {
        msg_runtime *runtime;
        uint32_t next = (uint32_t)made, above = next % TREES + TREES * below(next / TREES);
        want(msg_process_lock(&runtime), MSG_DONE);
        if (next < CLASSES) want(msg_make_class(runtime, next, above), MSG_DONE);
        else want(msg_make_class(runtime, 1, above), MSG_DUPLICATE_CLASS);
        msg_process_unlock();
        if (next < CLASSES) made++;
        find_some(false);
        rest(below(2));
        usleep(2000);
    }
    return NULL;
}

/* A step is gone once all have seen the step that took it away. */
static void *ask_on(void *none)
{
    for (long next = 1; !is_over && !wrong; sched_yield()) {
        uint64_t changes = 0, thread = 0;
        want(msg_process_seen_by_all(&changes, &thread), MSG_DONE);
        while (next < STORED && counts[next] && counts[next] <= changes) next++;
        if (next > METHODS) gone = next - 1 - METHODS;
    }
    return none;
}

/* ---- threads that come and go ---- */

static pthread_key_t ending;

static void at_end(void *rounds)
{
    find_some(false);
    if ((size_t)rounds > 1) pthread_setspecific(ending, (char *)rounds - 1);
}

static void *find_and_end(void *number)
{
    begin_thread((long)number);
    for (uint32_t i = below(30); i-- && !is_over;) {
        find_some(false);
        rest_at_times();
    }
    without += !msg_process_own.sender->open;
    pthread_setspecific(ending, (void *)(size_t)(1 + below(3)));
    ended++;
    return NULL;
}

/* A sender of the host's own, in one turn of the lock, so that no fork comes while it is out. */
static void open_and_close(void)
{
    static msg_sender sender;
    msg_runtime *runtime;
    uint32_t imp = 0;
    long method = below(METHODS);
    want(msg_process_lock(&runtime), MSG_DONE);
    uint32_t fault = msg_sender_open(runtime, &sender);
    if (!fault) {
        bool meta = is_of_class(method);
        want(msg_fill(runtime, &sender, root_of(method), meta, selector(method), &imp), MSG_DONE);
        bool is_newest = imp % METHODS == method && imp + METHODS > begun && imp <= begun;
        if (!is_newest) tell("not the newest, begun", imp, begun);
        want(msg_sender_close(runtime, &sender), MSG_DONE);
        opened++;
    } else want(fault, MSG_NO_SENDER);
    msg_process_unlock();
}

static void *begin_and_end(void *number)
{
    begin_thread((long)number);
    for (long i = 1; !is_over; i++) {
        open_and_close();
        pthread_t threads[BEGINNERS];
        int count = 1 + (int)below(BEGINNERS), are = 0;
        for (; are < count; are++) {
            void *number_of = (void *)(i * BEGINNERS + are);
            if (pthread_create(&threads[are], NULL, find_and_end, number_of)) break;
        }
        if (are < count) tell("no thread", are, count);
        rest(true);
        while (are) pthread_join(threads[--are], NULL);
    }
    return NULL;
}

/* How many more senders there are. */
static long left(void)
{
    static msg_sender taken[SENDERS + 1];
    msg_runtime *runtime;
    long count = 0;
    want(msg_process_lock(&runtime), MSG_DONE);
    while (count <= SENDERS && !msg_sender_open(runtime, &taken[count])) count++;
    for (long i = 0; i < count; i++) msg_sender_close(runtime, &taken[i]);
    msg_process_unlock();
    return count;
}

/* ---- forks ---- */

#ifdef SANITIZED_thread
enum { FORKS = true, THREADS_IN_CHILD = false }; /* ThreadSanitizer has none */
#elif defined SANITIZED_address
/* of its memory a child may find a lock held by a thread that isn't there: rules.c alone forks */
enum { FORKS = false, THREADS_IN_CHILD = true };
#else
enum { FORKS = true, THREADS_IN_CHILD = true };
#endif

static void *in_thread_of_child(void *none)
{
    begin_thread(1);
    for (int i = 0; i < 20; i++) find_some(false);
    return none;
}

static void child(bool has_sender)
{
    pthread_t thread;
    msg_runtime *runtime;
    uint64_t changes, thread_number = 1;
    wrong = 0;
    alarm(CHILDS_PATIENCE);
    rest(below(2));
    want(msg_process_seen_by_all(&changes, &thread_number), MSG_DONE);
    if (thread_number) tell("in a child another holds old code, by number", (long)thread_number, 0);
    for (int i = 0; i < 50; i++) {
        find_some(false);
        change_some();
    }
    long wanted = SENDERS - has_sender;
    if (left() != wanted) tell("senders that are left in a child", left(), wanted);
    want(msg_process_lock(&runtime), MSG_DONE);
    uint32_t fault = msg_make_class(runtime, (uint32_t)made, 0);
    msg_process_unlock();
    /* a class may have been made whose maker hadn't told it */
    bool is_made = fault == MSG_DONE || fault == MSG_DUPLICATE_CLASS || made >= CLASSES;
    if (!is_made) tell("no class, classes", fault, made);
    if (THREADS_IN_CHILD && !pthread_create(&thread, NULL, in_thread_of_child, NULL))
        pthread_join(thread, NULL);
    _exit(wrong ? 1 : 0);
}

static void *fork_on(void *number)
{
    begin_thread((long)number);
    for (; !is_over; forked++) {
        find_some(false);
        bool has_sender = msg_process_own.sender->open;
        pid_t pid = fork();
        if (!pid) child(has_sender);
        int status = 0;
        rest(true);
        while (pid > 0 && waitpid(pid, &status, 0) < 0 && errno == EINTR) {}
        if (pid < 0 || status) tell("a child ended otherwise, status", pid, status);
        usleep(1000 + below(4000));
    }
    return NULL;
}

/* ---- handlers ---- */

static void handle(int signal)
{
    int kept = errno;
    (void)signal;
    handles = true;
    find_some(true);
    handles = false;
    if (!below(16)) {
        msg_runtime *runtime;
        uint32_t fault = msg_process_lock(&runtime);
        if (!fault) msg_process_unlock();
        else want(fault, MSG_LOCK_HELD);
    }
    handled++;
    errno = kept;
}

static bool is_little(void)
{
    return !refused || !ended || !without || !opened || (FORKS && !forked) || !handled || !held ||
           !ahead || made < 9 || gone < METHODS;
}

int main(void)
{
    enum { THREADS = FINDERS + CHANGERS + 1 };
    static void *(*const others[])(void *) = {begin_and_end, begin_and_end,
                                              FORKS ? fork_on : find_on, ask_on};
    pthread_t threads[THREADS], beside[4];
    msg_runtime *runtime;
    msg_config config = {.classes = CLASSES, .senders = SENDERS};
    alarm(PATIENCE + SECONDS);
    pthread_key_create(&ending, at_end);
    want(msg_process_start(&config), MSG_DONE);
    want(msg_process_lock(&runtime), MSG_DONE);
    for (uint32_t i = 0; i < TREES; i++) want(msg_make_root_class(runtime, i), MSG_DONE);
    for (uint32_t i = TREES; i < 2 * TREES; i++)
        want(msg_make_class(runtime, i, i - TREES), MSG_DONE);
    made = 2 * TREES;
    while (begun < METHODS) change(runtime, 1);
    msg_process_unlock();
    rest(true);

    sigaction(SIGUSR1, &(struct sigaction){.sa_handler = handle, .sa_flags = SA_RESTART}, NULL);
    for (long i = 0; i < THREADS; i++)
        pthread_create(&threads[i], NULL,
                       i < FINDERS ? find_on : i < FINDERS + CHANGERS ? change_on : make_on,
                       (void *)(i + 1));
    while (ready < THREADS) usleep(1000);
    for (long i = 0; i < 4; i++) pthread_create(&beside[i], NULL, others[i], (void *)(i + 100));
    time_t end = time(NULL) + SECONDS;
    while (!wrong && (time(NULL) < end || (is_little() && time(NULL) < end + PATIENCE / 2))) {
        pthread_kill(threads[below(THREADS)], SIGUSR1);
        usleep(20);
    }
    is_over = true;
    for (int i = 0; i < THREADS; i++) pthread_join(threads[i], NULL);
    for (int i = 0; i < 4; i++) pthread_join(beside[i], NULL);
    /* this thread has none */
    if (left() != SENDERS) tell("senders that are left", left(), SENDERS);
    fprintf(stderr,
            "%ld answers beside %ld steps, %ld older than what was stored for the next; "
            "%ld refused changes, %ld classes, %ld threads (%ld without a sender), %ld senders, "
            "%ld forks; %ld rests, %ld steps gone; %ld signals, %ld answered that the lock is "
            "held\n",
            (long)answers, (long)begun, (long)ahead, (long)refused, (long)made, (long)ended,
            (long)without, (long)opened, (long)forked, (long)rested, (long)gone, (long)handled,
            (long)held);
    printf("stress: %ld wrong%s\n", (long)wrong, is_little() ? ", and too little was tried" : "");
    return wrong || is_little();
}
