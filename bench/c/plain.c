/* A ring of two directions in plain C, of the same steps: sequentially consistent words, of which a put stores those that
 * differ, and control words that tell what was taken. It stands in a file of its own, so a put and a take are calls, as
 * they are of the archive. */
#include <stdatomic.h>
#include <stdint.h>
#include <stdlib.h>
#include <string.h>

struct plain_side { _Atomic uint64_t *out, *in; uint64_t slots, put, taken, known; };

static uint64_t epoch_at(const struct plain_side *s, uint64_t count)
{
    return !(count & s->slots);
}

static _Atomic uint64_t *slot_at(const struct plain_side *s, _Atomic uint64_t *slots, uint64_t count)
{
    return slots + (count & (s->slots - 1)) * 8;
}

static void learn(struct plain_side *s, uint64_t control)
{
    s->known += ((control >> 48) - s->known) & 65535;
}

static int is_blank(const uint64_t fragment[8])
{
    uint64_t all = 0;
    for (int k = 0; k < 7; k++) all |= fragment[k];
    return !all;
}

/* Whether there was memory. */
int plain_duo(uint64_t slots, struct plain_side **one, struct plain_side **two)
{
    _Atomic uint64_t *words = aligned_alloc(64, 128 * slots);
    *one = calloc(1, sizeof **one), *two = calloc(1, sizeof **two);
    if (!words || !*one || !*two) return 0;
    memset(words, 0, 128 * slots);
    **one = (struct plain_side){ words, words + 8 * slots, slots, 0, 0, 0 };
    **two = (struct plain_side){ words + 8 * slots, words, slots, 0, 0, 0 };
    return 1;
}

/* A fault's number, or 0. */
unsigned plain_put(struct plain_side *s, const uint64_t fragment[8])
{
    uint64_t body = fragment[7] & 0xfffffffffffe;
    if (body == 4 && is_blank(fragment)) return 63;
    if (s->put == 1ull << 62) return 33;
    if (s->slots + s->known - s->put < 2) {
        uint64_t control = atomic_load(slot_at(s, s->in, s->taken) + 7);
        if (control % 2 == epoch_at(s, s->taken)) learn(s, control);
        if (s->slots + s->known - s->put < 2) return 30;
    }
    _Atomic uint64_t *slot = slot_at(s, s->out, s->put);
#pragma GCC unroll 7
    for (int k = 0; k < 7; k++)
        if (atomic_load(slot + k) != fragment[k]) atomic_store(slot + k, fragment[k]);
    atomic_store(slot + 7, body + epoch_at(s, s->put) + (s->taken << 48));
    s->put++;
    return 0;
}

/* 0 where nothing stands there, 1 with a fragment, 2 with one that only acknowledges. */
unsigned plain_take(struct plain_side *s, uint64_t fragment[8])
{
    _Atomic uint64_t *slot = slot_at(s, s->in, s->taken);
    uint64_t control = atomic_load(slot + 7);
    if (control % 2 != epoch_at(s, s->taken)) return 0;
#pragma GCC unroll 7
    for (int k = 0; k < 7; k++) fragment[k] = atomic_load(slot + k);
    fragment[7] = control;
    learn(s, control);
    s->taken++;
    return (control & 0xfffffffffffe) == 4 && is_blank(fragment) ? 2 : 1;
}
