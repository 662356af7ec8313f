/* Memory that may be refused at each place, and all of which a run gives back: blocks are kept in a
 * list, so that a run that is left in the middle leaves none. */
#include <stddef.h>
#include <stdlib.h>
#include "every_choice.h"

enum { MOST_BLOCKS = 256 };
static void *blocks[MOST_BLOCKS];
static int block_count;

static void *keep_block(void *block)
{
    if (block_count == MOST_BLOCKS) exit(2);
    return block ? blocks[block_count++] = block : NULL;
}
static void *cv_calloc(size_t many, size_t size)
{
    return any_bool() ? NULL : keep_block(calloc(many, size));
}
static char *cv_strdup(const char *text) { return any_bool() ? NULL : keep_block(strdup(text)); }
static void cv_free(void *block)
{
    for (int i = 0; i < block_count; i++)
        if (blocks[i] == block) blocks[i--] = blocks[--block_count];
    free(block);
}
static void free_blocks(void) { while (block_count) free(blocks[--block_count]); }
#define calloc cv_calloc
#define strdup cv_strdup
#define free cv_free

void cv_show_trace(void)
{
    for (int i = 0; i < choice; i++) printf(i ? " %d" : "%d", chosen[i]);
    putchar('\n');
}

static int locks;
void shim_take(void)
{
    __CPROVER_assert(!locks, "the lock isn't taken twice by one thread");
    locks++;
}
void msg_process_unlock(void) { locks--; }

static int pick(int count)
{
    int i = 0;
    while (i < count - 1 && any_bool()) i++;
    return i;
}
