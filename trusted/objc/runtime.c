/* Over the layer for a process (trusted/process/msg_process.c), which has the one runtime, its lock
 * and the threads' senders: its start, and what is asked of it under the lock. Trusted: that it is
 * started before anything is asked, and that memory that is given back says nothing else later. */
#include "seat.h"
#include <signal.h>
#include <stdio.h>
#include <sys/mman.h>
#include <sys/single_threaded.h>
#include <sys/uio.h>
#include <unistd.h>

/* All arrays are written at the start, so they are what programs take: of up to 32 entries two
 * fifths of the default, of which no program was seen to want more, and of larger ones the
 * default, since half of these were too few for programs with windows. */
enum { SENDERS = 4096, MOST_SENDERS = 16384, CLASS_NUMBERS = 16384 };
enum { PIECE = 1 << 14, NEAR = 1 << 22 };

msg_runtime *shim_runtime;

/* Of want of memory, since nothing else is left that the shim doesn't see to before. */
void shim_must(uint32_t fault, const char *what)
{
    if (__builtin_expect(fault, 0)) shim_stop(msg_fault_text(fault), what);
}

/* What the environment asks for, within these. */
static uint32_t room(const char *name, uint32_t fewest, uint32_t most)
{
    const char *said = secure_getenv(name);
    unsigned long number = said ? strtoul(said, NULL, 10) : 0;
    return number < fewest ? fewest : number > most ? most : (uint32_t)number;
}

/* What is zeros between these, by whole pages: the kernel takes it, and gives zeros again when it
 * is used. It is asked for what lies there, too: tools that watch what a program reads would tell
 * of memory that nobody has taken. */
static void give_back_between(char *piece, const char *end)
{
    char copy[PIECE];
    for (char *first = piece; first < end; piece += PIECE) {
        struct iovec to = {copy, PIECE}, from = {piece, PIECE};
        bool is_read =
            end - piece >= PIECE && process_vm_readv(getpid(), &to, 1, &from, 1, 0) == PIECE;
        if (is_read && !copy[0] && !memcmp(copy, copy + 1, PIECE - 1)) continue;
        if (first < piece) madvise(first, (size_t)(piece - first), MADV_DONTNEED);
        first = piece + PIECE;
    }
}

/* The library writes its tables as it opens, nearly all by zeros: 3 MB. They lie near the words
 * that threads share. Given back is memory alone, no file's, and only where no other thread is, and
 * no handler comes, that might write to a page after it was looked at. */
static void give_back_zeros(uintptr_t words)
{
    static const char is_no_files[] = " rw-p 00000000 00:00 0 ";
    sigset_t all, before;
    char line[512], *at;
    FILE *maps = __libc_single_threaded ? fopen("/proc/self/maps", "re") : NULL;
    if (!maps) return;
    sigfillset(&all);
    pthread_sigmask(SIG_SETMASK, &all, &before);
    while (fgets(line, sizeof line, maps)) {
        uintptr_t from = strtoul(line, &at, 16), end = strtoul(at + (*at == '-'), &at, 16);
        if (words < from || words >= end || strncmp(at, is_no_files, strlen(is_no_files))) continue;
        if (from + NEAR < words) from = (words - NEAR) & -(uintptr_t)PIECE;
        if (words + NEAR < end) end = (words + NEAR) & -(uintptr_t)PIECE;
        give_back_between((char *)from, (char *)end);
    }
    pthread_sigmask(SIG_SETMASK, &before, NULL);
    fclose(maps);
}

/* Another thread may have come first. */
static void start(void)
{
    uint32_t classes = room("MSG_CLASSES", CLASS_NUMBERS, MOST_CLASSES + 1);
    uint32_t senders = room("MSG_SENDERS", SENDERS, MOST_SENDERS);
    if (msg_version() != MSG_VERSION_NUMBER || msg_sender_size() != sizeof(msg_sender))
        shim_stop("the library is of another header", "msg_version");
    shim_class_room = classes - 1;
    shim_take_secret();
    msg_config config = {classes, senders, .arrays = {1024, 768, 320, 160, 128, 64, 32, 16, 8}};
    uint32_t fault = msg_process_start(&config);
    if (fault == MSG_ALREADY_OPEN) return;
    shim_must(fault, "runtime");
    give_back_zeros((uintptr_t)msg_process_words.at);
    shim_care_for_forks();
    const char *said = secure_getenv("MSG_REPORT");
    if (said && !strcmp(said, "1")) atexit(shim_report);
}

void shim_take(void)
{
    uint32_t fault;
    while (__builtin_expect((fault = msg_process_lock(&shim_runtime)) == MSG_CLOSED, 0)) start();
    shim_must(fault, "in a handler of a signal");
}

/* Here, since this file is linked into every program. */
static __attribute__((constructor)) void at_start(void) { shim_take_roots(); }
