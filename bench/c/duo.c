/* A ring of two directions in one thread: puts and takes from C, the same loop within the archive, in line and by calls, and
 * puts and takes of plain C (`plain.c`), in turn. Prints the medians of a put with its take, in ns, and their ratios. Each
 * fragment has seven different numbers that were drawn before, none of which can be had of another. `duo ours` and
 * `duo plain` do ten runs of one side alone, whose instructions can be counted. */
#include <flounder.h>
#include <stdio.h>
#include <stdlib.h>
#include <string.h>
#include <time.h>

/* bench/ffi/flounder_bench.rattle */
uint64_t flounder_duo_of_numbers(size_t slots, uint64_t rounds, uint64_t batch, const uint64_t *numbers, size_t count);
uint64_t flounder_duo_by_calls(size_t slots, uint64_t rounds, uint64_t batch, const uint64_t *numbers, size_t count);

/* plain.c */
struct plain_side;
int plain_duo(uint64_t slots, struct plain_side **one, struct plain_side **two);
unsigned plain_put(struct plain_side *side, const uint64_t fragment[8]);
unsigned plain_take(struct plain_side *side, uint64_t fragment[8]);

/* Short runs, so that most end before other work takes the processor. */
enum { SLOTS = 64, ROUNDS = 500, BATCH = 16, RUNS = 901 };

/* Each number by itself, as the loops in Rattle read them. */
static uint64_t read_of(const uint64_t f[8])
{
    return f[0] + (f[1] ^ (f[2] + (f[3] ^ (f[4] + (f[5] ^ f[6])))));
}

static unsigned our_take(fl_side *side, uint64_t fragment[8])
{
    unsigned sight;
    fl_take(side, fragment, &sight);
    return sight;
}

/* The numbers of all fragments, seven each: those of a round begin with the second fragment of the round before. */
static uint64_t numbers[7 * (ROUNDS + BATCH)];

/* A batch from one side to the other, of which each fragment is made, put, taken and read. */
#define OVER(NAME, SIDE, PUT, TAKE) \
    static uint64_t NAME(SIDE *from, SIDE *to, const uint64_t *v) \
    { \
        uint64_t sum = 0, fragment[8]; \
        for (uint64_t k = 0; k < BATCH; k++, v += 7) { \
            uint64_t next[8] = { v[0], v[1], v[2], v[3], v[4], v[5], v[6], 2 }; \
            PUT(from, next); \
        } \
        for (uint64_t k = 0; k < BATCH; k++) \
            if (TAKE(to, fragment) == FL_FRAGMENT) sum += read_of(fragment); \
        return sum; \
    }

OVER(over, fl_side, fl_put, our_take)
OVER(over_plain, struct plain_side, plain_put, plain_take)

static uint64_t from_c(void)
{
    fl_side one, two;
    uint64_t sum = 0;
    if (fl_duo(SLOTS, &one, &two)) return 0;
    for (uint64_t round = 0; round < ROUNDS; round++) {
        sum += over(&one, &two, numbers + 7 * round);
        sum += over(&two, &one, numbers + 7 * round);
    }
    fl_free_side(&one);
    fl_free_side(&two);
    return sum;
}

static uint64_t plain_c(void)
{
    static struct plain_side *one, *two;
    uint64_t sum = 0;
    if (!one && !plain_duo(SLOTS, &one, &two)) return 0;
    for (uint64_t round = 0; round < ROUNDS; round++) {
        sum += over_plain(one, two, numbers + 7 * round);
        sum += over_plain(two, one, numbers + 7 * round);
    }
    return sum;
}

static uint64_t in_rattle(void)
{
    return flounder_duo_of_numbers(SLOTS, ROUNDS, BATCH, numbers, sizeof numbers / sizeof *numbers);
}

/* Its put and its take are calls there. */
static uint64_t in_rattle_by_calls(void)
{
    return flounder_duo_by_calls(SLOTS, ROUNDS, BATCH, numbers, sizeof numbers / sizeof *numbers);
}

static double now(void)
{
    struct timespec at;
    clock_gettime(CLOCK_MONOTONIC, &at);
    return at.tv_sec * 1e9 + at.tv_nsec;
}

static int by_size(const void *a, const void *b)
{
    double x = *(const double *)a, y = *(const double *)b;
    return (x > y) - (x < y);
}

int main(int argc, char **argv)
{
    static uint64_t (*const runs[])(void) = { from_c, in_rattle, plain_c, in_rattle_by_calls };
    enum { SIDES = sizeof runs / sizeof *runs };
    static double times[SIDES][RUNS];
    double middle[SIDES];
    uint64_t x = 88172645463325252;
    for (size_t k = 0; k < sizeof numbers / sizeof *numbers; k++) {
        x ^= x << 13, x ^= x >> 7, x ^= x << 17;
        numbers[k] = x;
    }
    if (argc > 1) {
        int plain = !strcmp(argv[1], "plain");
        for (int run = 0; run < 10; run++)
            if (!runs[plain ? 2 : 0]()) return 1;
        return 0;
    }
    uint64_t wanted = from_c();
    for (int run = 0; run < SIDES * RUNS; run++) {
        double start = now();
        uint64_t sum = runs[run % SIDES]();
        times[run % SIDES][run / SIDES] = (now() - start) / (2.0 * ROUNDS * BATCH);
        if (sum != wanted || !sum) return 1;
    }
    for (int k = 0; k < SIDES; k++) {
        qsort(times[k], RUNS, sizeof *times[k], by_size);
        middle[k] = times[k][RUNS / 2];
    }
    printf("put and take of a duo: from C %.1f ns; in Rattle, in line %.1f ns: %.2f; in Rattle by calls %.1f ns: %.2f; plain C by calls "
           "%.1f ns: %.2f\n",
        middle[0], middle[1], middle[1] / middle[0], middle[3], middle[3] / middle[0], middle[2], middle[2] / middle[0]);
    return 0;
}
