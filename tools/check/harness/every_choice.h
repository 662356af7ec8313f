/* Runs a harness for each sequence of choices that it can make, deepest first: what cbmc does by a
 * formula, by running. Each run is printed as the places of its choices where it fails.
 *
 * With STATES a run ends at a choice at which another one stood before: with the same bytes in all
 * variables, on the stack and in the registers that a call keeps, so what may follow was run. Of
 * the bytes 63 mixed bits are kept: that two states are taken for one is a chance of 1 in 10^5 at
 * ten million of them. Each run begins with all variables as they were at the start. */
#include <setjmp.h>
#include <stdbool.h>
#include <stdint.h>
#include <stdio.h>
#include <stdlib.h>
#include <string.h>
enum { MOST_CHOICES = 4096, MOST_FAULTS = 16 };

/* All that outlasts a run. */
struct search {
    unsigned char chosen[MOST_CHOICES];
    int choice, choices;
    unsigned long long runs, states;
    jmp_buf out_of_run;
    struct { const char *what; unsigned long long count; } faults[MOST_FAULTS];
    uint64_t *seen, room;
    char *variables, *base;
    struct { const char *what; long a, b; int depth; } trace[512];
    int traced;
};
static struct search *search;
#define choice search->choice
#define chosen search->chosen

static bool next_choice(void)
{
    if (choice == MOST_CHOICES) { puts("too many choices"); exit(2); }
    if (choice == search->choices) chosen[search->choices++] = 0;
    return chosen[choice++];
}

#ifdef STATES
extern char __data_start, _end;
static uint64_t mixed_bytes(uint64_t mixed, const char *from, const char *to)
{
    uint64_t word;
    for (; from + 8 <= to; from += 8) {
        memcpy(&word, from, 8);
        unsigned __int128 both = (unsigned __int128)(mixed ^ word) * 0x9e3779b97f4a7c15u;
        mixed = ((uint64_t)both ^ (uint64_t)(both >> 64)) + 0x2545f4914f6cdd1du;
    }
    return mixed;
}
static bool put_state(uint64_t state)
{
    uint64_t at = state;
    while (search->seen[at & (search->room - 1)] && search->seen[at & (search->room - 1)] != state)
        at++;
    bool is_new = !search->seen[at & (search->room - 1)];
    search->seen[at & (search->room - 1)] = state;
    return is_new;
}
static bool is_new_state(uint64_t state)
{
    if (!put_state(state)) return false;
    if (++search->states * 2 < search->room) return true;
    uint64_t *before = search->seen, room = search->room;
    search->room = 2 * room;
    search->seen = calloc(search->room, sizeof *before);
    if (!search->seen) exit(2);
    for (uint64_t i = 0; i < room; i++) if (before[i]) put_state(before[i]);
    free(before);
    return true;
}
/* From `stack`, where the registers lie that a call keeps. */
__attribute__((used)) static bool choose_state(const char *stack)
{
    if (choice < search->choices) return next_choice();
    uint64_t state = mixed_bytes(1, &__data_start, &_end) | 1;
    state = mixed_bytes(state, stack, search->base) | 1;
    if (!is_new_state(state)) longjmp(search->out_of_run, 1);
    return next_choice();
}
bool choose(void);
__asm__(".text\nchoose:\n push %rbx\n push %rbp\n push %r12\n push %r13\n push %r14\n push %r15\n"
        " push $0\n mov %rsp, %rdi\n call choose_state\n add $8, %rsp\n pop %r15\n pop %r14\n"
        " pop %r13\n pop %r12\n pop %rbp\n pop %rbx\n ret\n");
static void keep_variables(bool back)
{
    size_t size = (size_t)(&_end - &__data_start);
    if (!search->variables) search->variables = malloc(size);
    memcpy(back ? &__data_start : search->variables, back ? search->variables : &__data_start,
           size);
}
#else
#define choose next_choice
#endif
#define any_bool() choose()

static void fail(const char *what, int line)
{
    int i = 0;
    while (i < MOST_FAULTS - 1 && search->faults[i].what && strcmp(search->faults[i].what, what))
        i++;
    if (!search->faults[i].count) {
        search->faults[i].what = what;
        printf("FAILS, run %llu, line %d: %s\n", search->runs, line, what);
        extern void cv_show_trace(void);
        cv_show_trace();
        if (getenv("CHECK_ONCE")) exit(1);
    }
    search->faults[i].count++;
    longjmp(search->out_of_run, 1);
}
#define __CPROVER_assert(is_so, what) ((is_so) ? (void)0 : fail(what, __LINE__))
#define __CPROVER_assume(is_so) ((is_so) ? (void)0 : longjmp(search->out_of_run, 1))

static __attribute__((noinline)) void run_once(int (*one_run)(void))
{
    search->base = __builtin_frame_address(0);
    if (!setjmp(search->out_of_run)) one_run();
}

static int every_choice(int argc, char **argv, void (*afresh)(void), int (*one_run)(void))
{
    unsigned long long most = argc > 1 ? strtoull(argv[1], NULL, 10) : 0;
    int found = 0, deepest = 0;
    search = calloc(1, sizeof *search);
    search->room = 1 << 16;
    search->seen = calloc(search->room, sizeof *search->seen);
#ifdef STATES
    afresh();
    keep_variables(false);
#endif
    for (;;) {
        choice = search->traced = 0;
#ifdef STATES
        keep_variables(true);
#else
        afresh();
#endif
        run_once(one_run);
        search->runs++;
        if (choice > deepest) deepest = choice;
        search->choices = choice;
        while (search->choices && chosen[search->choices - 1]) search->choices--;
        if (!search->choices) break;
        chosen[search->choices - 1] = 1;
        if (most && search->runs == most) {
            printf("STOPPED after %llu runs\n", search->runs);
            break;
        }
    }
    for (int i = 0; i < MOST_FAULTS && search->faults[i].count; i++) {
        printf("%llu runs fail: %s\n", search->faults[i].count, search->faults[i].what);
        found = 1;
    }
    printf("%s: %llu runs, %llu states, at most %d choices\n", found ? "FAILED" : "ALL RIGHT",
           search->runs, search->states, deepest);
    return found;
}
