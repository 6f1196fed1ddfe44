/* Memory for the archive, in place of malloc's: each block begins on a cache line of its own and fills whole lines, so
 * no two blocks share one, and each slot of a ring is a line. Between threads that tells: docs/C.md. The line before a
 * block says how long it is. A thread keeps a few blocks that it freed for the next ones of as many lines, until it ends.
 * LINE is 64, or what is given by -DLINE=128. */
#include <flounder.h>
#include <stdlib.h>
#include <string.h>
#include <threads.h>

#ifndef LINE
#define LINE 64
#endif

enum { MOST = 64, KEPT = 16 };
struct block { size_t lines; struct block *next; };
struct kept { struct block *first; unsigned count; };
static _Thread_local struct kept kept[MOST];
static _Thread_local int is_known;
static once_flag once = ONCE_FLAG_INIT;
static tss_t ends;
static int has_ends;

/* What a thread kept is freed where it ends. */
static void give_back(void *of_thread)
{
    struct kept *each = of_thread;
    for (size_t lines = 0; lines < MOST; lines++)
        while (each[lines].first) {
            struct block *block = each[lines].first;
            each[lines].first = block->next;
            free(block);
        }
}

static void make_ends(void)
{
    has_ends = tss_create(&ends, give_back) == thrd_success;
}

/* Whether this thread may keep blocks. */
static int keeps(void)
{
    if (!is_known) {
        call_once(&once, make_ends);
        is_known = has_ends && tss_set(ends, kept) == thrd_success ? 1 : 2;
    }
    return is_known == 1;
}

struct flroom rattle_alloc(size_t size, size_t align)
{
    size_t lines = size / LINE + 1;
    struct block *block = lines < MOST ? kept[lines].first : 0;
    (void)align;
    if (block) kept[lines].first = block->next, kept[lines].count--;
    else if (!(block = aligned_alloc(LINE, (lines + 1) * LINE))) return (struct flroom){ 0, 0 };
    block->lines = lines;
    return (struct flroom){ 1, (char *)block + LINE };
}

void rattle_dealloc(void *at)
{
    struct block *block = (struct block *)((char *)at - LINE);
    size_t lines = block->lines;
    if (lines >= MOST || kept[lines].count >= KEPT || !keeps()) {
        free(block);
        return;
    }
    block->next = kept[lines].first;
    kept[lines].first = block;
    kept[lines].count++;
}

struct flroom rattle_realloc(void *old, size_t count, size_t size, size_t align)
{
    struct flroom room = rattle_alloc(size, align);
    if (!room.is_there) return room;
    memcpy(room.at, old, count);
    rattle_dealloc(old);
    return room;
}
