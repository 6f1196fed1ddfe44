/* A malloc whose blocks begin on cache lines and fill whole ones, for a program that is started with this in LD_PRELOAD: its
 * rings lie then as that of the plain C does. */
#include <malloc.h>
#include <stdlib.h>
#include <string.h>

#define LINE 64

void *malloc(size_t size) {
    return aligned_alloc(LINE, size / LINE * LINE + LINE);
}

void *calloc(size_t count, size_t size) {
    void *block = malloc(count * size);
    return block ? memset(block, 0, count * size) : NULL;
}

void *realloc(void *old, size_t size) {
    void *block = malloc(size);
    if (!block || !old) return block;
    size_t kept = malloc_usable_size(old);
    memcpy(block, old, kept < size ? kept : size);
    free(old);
    return block;
}
