/* A plain ring of acquire and release in C: a line of eight words in each slot, a count of what was put and one of what was
   taken, each on a cache line of its own beside the other side's count as it was last seen. */
#include <stdatomic.h>
#include <stdint.h>
#include <stdlib.h>
#include <string.h>
#include <time.h>

#define MOST 16
#define STRETCH 1000

typedef struct { uint64_t words[8]; } line_t;

typedef struct {
    _Alignas(128) _Atomic uint64_t put;
    uint64_t seen_taken;
    _Alignas(128) _Atomic uint64_t taken;
    uint64_t seen_put;
    _Alignas(128) uint64_t slots;
    line_t *lines;
} ring_t;

ring_t *c_ring_new(uint64_t slots) {
    ring_t *r = aligned_alloc(128, sizeof(ring_t));
    if (!r) return NULL;
    memset(r, 0, sizeof *r);
    r->slots = slots;
    r->lines = aligned_alloc(64, slots * sizeof(line_t));
    if (!r->lines) { free(r); return NULL; }
    memset(r->lines, 0, slots * sizeof(line_t));
    return r;
}

void c_ring_free(ring_t *r) {
    free(r->lines);
    free(r);
}

static inline line_t line_of(uint64_t v) {
    line_t l = {{v, v, v, v, v, v, v, 2}};
    return l;
}

static inline uint64_t sum_of(const line_t *l) {
    uint64_t sum = 0;
    for (int k = 0; k < 7; k++) sum += l->words[k];
    return sum;
}

/* Whether there was room for all n. */
static inline int ring_put(ring_t *r, const line_t *lines, uint64_t n) {
    uint64_t put = atomic_load_explicit(&r->put, memory_order_relaxed);
    if (put + n - r->seen_taken > r->slots) {
        r->seen_taken = atomic_load_explicit(&r->taken, memory_order_acquire);
        if (put + n - r->seen_taken > r->slots) return 0;
    }
    for (uint64_t k = 0; k < n; k++) r->lines[(put + k) & (r->slots - 1)] = lines[k];
    atomic_store_explicit(&r->put, put + n, memory_order_release);
    return 1;
}

/* How many were taken, at most n. */
static inline uint64_t ring_take(ring_t *r, line_t *lines, uint64_t n) {
    uint64_t taken = atomic_load_explicit(&r->taken, memory_order_relaxed);
    if (r->seen_put - taken < n) {
        r->seen_put = atomic_load_explicit(&r->put, memory_order_acquire);
        if (r->seen_put - taken < n) n = r->seen_put - taken;
        if (n == 0) return 0;
    }
    for (uint64_t k = 0; k < n; k++) lines[k] = r->lines[(taken + k) & (r->slots - 1)];
    atomic_store_explicit(&r->taken, taken + n, memory_order_release);
    return n;
}

static inline void pause_for(uint64_t pauses) {
    for (uint64_t k = 0; k < pauses; k++) __builtin_ia32_pause();
}

static uint64_t nanoseconds(void) {
    struct timespec t;
    clock_gettime(CLOCK_MONOTONIC, &t);
    return (uint64_t)t.tv_sec * 1000000000u + (uint64_t)t.tv_nsec;
}

/* ---- both sides in one thread */

uint64_t c_ring_alone(uint64_t slots, uint64_t rounds, uint64_t batch) {
    ring_t *r = c_ring_new(slots);
    if (!r) return 0;
    uint64_t sum = 0;
    for (uint64_t round = 0; round < rounds; round++) {
        for (uint64_t k = 0; k < batch; k++) {
            line_t l = line_of(round + k);
            ring_put(r, &l, 1);
        }
        for (uint64_t k = 0; k < batch; k++) {
            line_t l;
            if (ring_take(r, &l, 1)) sum += sum_of(&l);
        }
    }
    c_ring_free(r);
    return sum;
}

uint64_t c_ring_slices_alone(uint64_t slots, uint64_t rounds) {
    ring_t *r = c_ring_new(slots);
    if (!r) return 0;
    uint64_t sum = 0;
    line_t lines[MOST];
    for (uint64_t round = 0; round < rounds; round++) {
        for (uint64_t k = 0; k < MOST; k++) lines[k] = line_of(round + k);
        ring_put(r, lines, MOST);
        uint64_t n = ring_take(r, lines, MOST);
        for (uint64_t k = 0; k < n; k++) sum += sum_of(&lines[k]);
    }
    c_ring_free(r);
    return sum;
}

/* ---- a side in a thread */

void c_ring_puts(ring_t *r, uint64_t count, uint64_t pauses) {
    for (uint64_t next = 0; next < count;) {
        line_t l = line_of(next);
        if (ring_put(r, &l, 1)) next++;
        else pause_for(pauses);
    }
}

void c_ring_puts_slices(ring_t *r, uint64_t count, uint64_t pauses) {
    line_t lines[MOST];
    for (uint64_t next = 0; next < count;) {
        for (uint64_t k = 0; k < MOST; k++) lines[k] = line_of(next + k);
        while (!ring_put(r, lines, MOST)) pause_for(pauses);
        next += MOST;
    }
}

/* The times of the stretches are written to `times`. */
uint64_t c_ring_takes(ring_t *r, uint64_t count, uint64_t pauses, uint64_t at_once, uint64_t *times) {
    uint64_t sum = 0, taken = 0, in_stretch = 0, since = nanoseconds();
    line_t lines[MOST];
    while (taken < count) {
        uint64_t n = at_once == 1 ? ring_take(r, lines, 1) : ring_take(r, lines, MOST);
        if (n == 0) { pause_for(pauses); continue; }
        for (uint64_t k = 0; k < n; k++) sum += sum_of(&lines[k]);
        taken += n;
        in_stretch += n;
        if (in_stretch >= STRETCH) {
            uint64_t now = nanoseconds();
            *times++ = (now - since) * STRETCH / in_stretch;
            since = now;
            in_stretch = 0;
        }
    }
    return sum;
}
