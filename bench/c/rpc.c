/* An rpc between two threads: by ends of the archive, and by a plain C program over a ring of the same steps and with
 * a stub by hand. The two take turns in short stretches, each in a run of its own threads. Prints for each the
 * middle stretch and the middle of the fastest tenth, in ns an rpc, and the ratio of plain C's time to ours: with a call
 * sent and one taken by two functions, and by the four that they are made of. It takes two processors that are free now
 * and then. `rpc one` has both ends in one thread; `rpc one ours`, `plain`, `ours-by-four` and `plain-by-four` do one side
 * alone, whose instructions can be counted. */
#include <flounder.h>
#include <pthread.h>
#include <stdatomic.h>
#include <stdio.h>
#include <stdlib.h>
#include <string.h>
#include <time.h>

enum { SLOTS = 16, RUNS = 60, STRETCHES = 20, STRETCH = 100, ALL = RUNS * STRETCHES };
enum { SQUARE, ANSWER };

static const char text[] = "interface squares \"s\" { rpc square(in uint64 x, out uint64 y); };";

/* ---- the plain ring of two directions: sequentially consistent words, of which a put stores those that differ */

/* Plain C is in line wherever it is called. */
#define IN_LINE static inline __attribute__((always_inline))

struct side { _Atomic uint64_t *out, *in; uint64_t put, taken, known; };

IN_LINE uint64_t epoch_at(uint64_t count)
{
    return 1 - count / SLOTS % 2;
}

IN_LINE void learn(struct side *s, uint64_t control)
{
    s->known += ((control >> 48) - s->known) & 65535;
}

IN_LINE int ring_put(struct side *s, const uint64_t words[8])
{
    if (SLOTS + s->known - s->put < 2) {
        uint64_t control = atomic_load(&s->in[s->taken % SLOTS * 8 + 7]);
        if (control % 2 == epoch_at(s->taken)) learn(s, control);
        if (SLOTS + s->known - s->put < 2) return 0;
    }
    _Atomic uint64_t *slot = s->out + s->put % SLOTS * 8;
    for (int k = 0; k < 7; k++)
        if (atomic_load(&slot[k]) != words[k]) atomic_store(&slot[k], words[k]);
    uint64_t body = words[7] / 2 % (1ull << 47) * 2;
    atomic_store(&slot[7], body + epoch_at(s->put) + (s->taken << 48));
    s->put++;
    return 1;
}

IN_LINE int ring_take(struct side *s, uint64_t words[8])
{
    _Atomic uint64_t *slot = s->in + s->taken % SLOTS * 8;
    uint64_t control = atomic_load(&slot[7]);
    if (control % 2 != epoch_at(s->taken)) return 0;
    for (int k = 0; k < 7; k++) words[k] = atomic_load(&slot[k]);
    words[7] = control;
    learn(s, control);
    s->taken++;
    return 1;
}

/* ---- the plain end: one call in transmission, and one that came */

/* on cache lines that its thread alone writes */
struct end { _Alignas(64) struct side side; uint64_t fragment[8], came[2]; int busy, whole, failed; };

IN_LINE unsigned plain_call(struct end *e, const uint64_t *call, size_t count)
{
    if (count < 1) return FL_WRONG_ROOM;
    if (call[0] > ANSWER) return FL_NO_SUCH_MESSAGE;
    if (count != 2) return FL_MISFIT;
    if (e->failed) return FL_FAILED;
    if (e->busy) return FL_BUSY;
    memset(e->fragment, 0, sizeof e->fragment);
    e->fragment[0] = call[1];
    e->fragment[7] = 2 + 65536 * call[0];
    e->busy = 1;
    return 0;
}

IN_LINE unsigned plain_write(struct end *e, unsigned *came)
{
    *came = FL_IDLE;
    if (e->failed) return FL_FAILED;
    if (!e->busy) return 0;
    *came = FL_NO_ROOM;
    if (!ring_put(&e->side, e->fragment)) return 0;
    e->busy = 0;
    *came = FL_WROTE;
    return 0;
}

IN_LINE unsigned plain_receive(struct end *e, unsigned *came)
{
    uint64_t words[8];
    *came = FL_EMPTY;
    if (e->failed) return FL_FAILED;
    if (e->whole) return FL_UNREAD;
    if (!ring_take(&e->side, words)) return 0;
    uint64_t control = words[7] / 2 % (1ull << 47), message = words[7] / 65536 % 65536, rest = 0;
    for (int k = 1; k < 7; k++) rest |= words[k];
    if (control != 1 + 32768 * message || message > ANSWER || rest) return e->failed = 1, 63;
    e->came[0] = message, e->came[1] = words[0];
    e->whole = 1;
    *came = FL_CALL;
    return 0;
}

IN_LINE unsigned plain_read(struct end *e, uint64_t *call, size_t room, uint64_t *count)
{
    *count = 0;
    if (!e->whole) return 0;
    *count = 2;
    if (room < 2) return FL_WRONG_ROOM;
    call[0] = e->came[0], call[1] = e->came[1];
    e->whole = 0;
    return 0;
}

/* ---- both in one */

IN_LINE unsigned plain_send(struct end *e, const uint64_t *call, size_t count, unsigned *came, uint64_t *left)
{
    unsigned fault = plain_call(e, call, count);
    *came = FL_IDLE;
    if (left) *left = 0;
    return fault ? fault : plain_write(e, came);
}

IN_LINE unsigned plain_take_call(struct end *e, uint64_t *call, size_t room, unsigned *came, uint64_t *count)
{
    unsigned fault = plain_receive(e, came);
    *count = 0;
    return fault || *came != FL_CALL ? fault : plain_read(e, call, room, count);
}

/* ---- both programs, by the same words */

/* A poll that found nothing leaves the core to its other thread for PAUSES pauses. */
#ifndef PAUSES
#define PAUSES 0
#endif

static void rest(void)
{
    for (int k = 0; k < PAUSES; k++) {
#if defined __x86_64__ || defined __i386__
        __builtin_ia32_pause();
#endif
    }
}

/* A call sent, and one taken, by two functions, and by the four that they are made of. */
#define BY_TWO(NAME, END, SEND, WRITE, TAKE) \
    static unsigned NAME##_call_out(END *end, uint64_t *call) \
    { \
        unsigned came; \
        if (SEND(end, call, 2, &came, 0)) return 1; \
        while (came != FL_WROTE) if (WRITE) return 2; \
        return 0; \
    } \
    static unsigned NAME##_call_in(END *end, uint64_t *call) \
    { \
        uint64_t count; \
        unsigned came; \
        for (;;) { \
            if (TAKE(end, call, 2, &came, &count)) return 3; \
            if (came == FL_CALL) return 0; \
            rest(); \
        } \
    }

#define BY_FOUR(NAME, END, CALL, WRITE, RECEIVE, READ) \
    static unsigned NAME##_call_out(END *end, uint64_t *call) \
    { \
        unsigned came; \
        if (CALL(end, call, 2)) return 1; \
        do if (WRITE) return 2; while (came != FL_WROTE); \
        return 0; \
    } \
    static unsigned NAME##_call_in(END *end, uint64_t *call) \
    { \
        uint64_t count; \
        unsigned came; \
        for (;;) { \
            if (RECEIVE(end, &came)) return 3; \
            if (came == FL_CALL) return READ(end, call, 2, &count); \
            rest(); \
        } \
    }

#define RPCS(NAME, END) \
    static void *NAME##_serve(void *end) \
    { \
        uint64_t call[2] = { 0, 1 }; \
        while (!NAME##_call_in(end, call) && call[1]) { \
            call[0] = ANSWER, call[1] *= call[1]; \
            if (NAME##_call_out(end, call)) break; \
        } \
        return 0; \
    } \
    static void NAME##_run(END *client, END *server, double *times) \
    { \
        pthread_t thread; \
        uint64_t call[2] = { SQUARE, 0 }; \
        if (pthread_create(&thread, 0, NAME##_serve, server)) exit(1); \
        for (int s = 0; s < STRETCHES; s++) { \
            double start = now(); \
            for (uint64_t k = 1; k <= STRETCH; k++) { \
                call[0] = SQUARE, call[1] = k; \
                if (NAME##_call_out(client, call) || NAME##_call_in(client, call) || call[1] != k * k) exit(2); \
            } \
            times[s] = (now() - start) / STRETCH; \
        } \
        call[0] = SQUARE, call[1] = 0; \
        NAME##_call_out(client, call); \
        pthread_join(thread, 0); \
    } \
    static void NAME##_alone(END *client, END *server, double *times) \
    { \
        uint64_t call[2]; \
        for (int s = 0; s < STRETCHES; s++) { \
            double start = now(); \
            for (uint64_t k = 1; k <= STRETCH; k++) { \
                call[0] = SQUARE, call[1] = k; \
                if (NAME##_call_out(client, call) || NAME##_call_in(server, call)) exit(3); \
                call[0] = ANSWER, call[1] *= call[1]; \
                if (NAME##_call_out(server, call) || NAME##_call_in(client, call) || call[1] != k * k) exit(4); \
            } \
            times[s] = (now() - start) / STRETCH; \
        } \
    }

static double now(void)
{
    struct timespec at;
    clock_gettime(CLOCK_MONOTONIC, &at);
    return at.tv_sec * 1e9 + at.tv_nsec;
}

BY_TWO(ours, fl_end, fl_send, fl_write(end, &came, 0), fl_take_call)
BY_TWO(plain, struct end, plain_send, plain_write(end, &came), plain_take_call)
BY_FOUR(ours_by_four, fl_end, fl_call, fl_write(end, &came, 0), fl_receive, fl_read)
BY_FOUR(plain_by_four, struct end, plain_call, plain_write(end, &came), plain_receive, plain_read)
RPCS(ours, fl_end)
RPCS(plain, struct end)
RPCS(ours_by_four, fl_end)
RPCS(plain_by_four, struct end)


static int by_size(const void *a, const void *b)
{
    double x = *(const double *)a, y = *(const double *)b;
    return (x > y) - (x < y);
}

/* Both ends, and a run of them. */
static void ours_both(void (*run)(fl_end *, fl_end *, double *), double *times)
{
    fl_end one, two;
    if (fl_ends_of_text(text, sizeof text - 1, 1, SLOTS, &one, &two, 0)) exit(5);
    run(&one, &two, times);
    fl_free_end(&one), fl_free_end(&two);
}

static void plain_both(void (*run)(struct end *, struct end *, double *), double *times)
{
    _Atomic uint64_t *words = aligned_alloc(64, 2 * SLOTS * 64);
    if (!words) exit(6);
    memset((void *)words, 0, 2 * SLOTS * 64);
    struct end one = { .side = { words, words + 8 * SLOTS, 0, 0, 0 } }, two = { .side = { words + 8 * SLOTS, words, 0, 0, 0 } };
    run(&one, &two, times);
    free((void *)words);
}

/* Ours and plain C's, by two functions and by four; in one thread and in two. */
enum { OURS, PLAIN, OURS_BY_FOUR, PLAIN_BY_FOUR, SIDES };

static void run_side(int side, int alone, double *times)
{
    switch (side) {
    case OURS: ours_both(alone ? ours_alone : ours_run, times); break;
    case PLAIN: plain_both(alone ? plain_alone : plain_run, times); break;
    case OURS_BY_FOUR: ours_both(alone ? ours_by_four_alone : ours_by_four_run, times); break;
    default: plain_both(alone ? plain_by_four_alone : plain_by_four_run, times);
    }
}

static void print_row(const char *name, double *ours, double *plain)
{
    qsort(ours, ALL, sizeof *ours, by_size);
    qsort(plain, ALL, sizeof *plain, by_size);
    printf("an rpc %s: ends %.0f ns (%.0f), plain C %.0f ns (%.0f), ratio %.2f (%.2f)\n", name, ours[ALL / 2], ours[ALL / 20],
        plain[ALL / 2], plain[ALL / 20], plain[ALL / 2] / ours[ALL / 2], plain[ALL / 20] / ours[ALL / 20]);
}

int main(int argc, char **argv)
{
    static double times[SIDES][ALL];
    static const char *const names[SIDES] = { "ours", "plain", "ours-by-four", "plain-by-four" };
    int alone = argc > 1 && !strcmp(argv[1], "one");
    const char *only = argc > 2 ? argv[2] : "";
    for (int run = 0; run < RUNS; run++)
        for (int side = 0; side < SIDES; side++)
            if (!*only || !strcmp(only, names[side])) run_side(side, alone, times[side] + run * STRETCHES);
    if (*only) return 0;
    print_row(alone ? "in one thread" : "between two threads", times[OURS], times[PLAIN]);
    print_row(alone ? "in one thread, by four calls" : "between two threads, by four calls", times[OURS_BY_FOUR], times[PLAIN_BY_FOUR]);
    return 0;
}
