/* A handler of a signal before each single instruction of what stands between trap(1) and trap(0):
 * by the processor's trap flag, on x86-64. A test defines _GNU_SOURCE first, for the names of
 * registers. */
#ifndef STEPPING_H
#define STEPPING_H

#include <signal.h>
#include <stdbool.h>
#include <sys/syscall.h>
#include <sys/wait.h>
#include <ucontext.h>
#include <unistd.h>

enum { TRAP = 1 << 8, COPY_SECONDS = 60 };

static volatile long step; /* how many handlers came */

/* The test's handler: whether it is to come before the next instruction, too. */
static bool at_step(void);

static void on_step(int number, siginfo_t *info, void *context)
{
    (void)number, (void)info;
    if (!at_step()) ((ucontext_t *)context)->uc_mcontext.gregs[REG_EFL] &= ~TRAP;
}

static void set_steps(void)
{
    struct sigaction action = {.sa_sigaction = on_step, .sa_flags = SA_SIGINFO};
    sigaction(SIGTRAP, &action, NULL);
}

static inline __attribute__((always_inline)) void trap(int on)
{
    unsigned long flags = __builtin_ia32_readeflags_u64();
    __builtin_ia32_writeeflags_u64(on ? flags | TRAP : flags & ~(unsigned long)TRAP);
}

/* For a handler that comes in a copy of the process for each step, so that one way through the
 * steps tries all. The copy has this thread alone, and no handlers for forks were called. True in
 * the copy, which is to end by its own _exit; it ends otherwise where it waits for ever. In the
 * process it waits for the copy, and counts one that didn't end with 0. */
static inline bool in_copy(long *failed)
{
    int status = 1;
    pid_t copy = (pid_t)syscall(SYS_fork);
    if (!copy) alarm(COPY_SECONDS);
    else if (copy < 0 || waitpid(copy, &status, 0) != copy || status) ++*failed;
    return !copy;
}

#endif
