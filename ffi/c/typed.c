/* Each message of an interface with every type of the language goes over by its struct: it is put, called,
 * received, read, taken back, and compared. The headers are those that `ffi/try` makes of every.if, under plan 1
 * or 2. */
#include "every.h"
#include <stdio.h>
#include <stdlib.h>
#include <string.h>

enum { MOST = every_varying_most, TIMES = 2000 };

static fl_end one, two;
static uint64_t seed = 1;

static uint64_t next_random(void)
{
    seed ^= seed << 13, seed ^= seed >> 7, seed ^= seed << 17;
    return seed;
}

/* Sends a call of `count` numbers, and leaves what came in `got`. */
static size_t over(uint64_t *call, size_t count, uint64_t *got)
{
    unsigned came;
    uint64_t read = 0;
    unsigned fault = fl_call(&one, call, count);
    if (fault) printf("refused: %u\n", fault), exit(1);
    do {
        if (fl_write(&one, &came, 0)) exit(2);
        if (fl_receive(&two, &came)) exit(3);
        fl_tell_end(&two);
        unsigned back;
        if (fl_receive(&one, &back)) exit(4);
    } while (came != FL_CALL);
    if (fl_read(&two, got, MOST, &read)) exit(5);
    return read;
}

static void scalars(void)
{
    struct every_scalars m, back;
    memset(&m, 0, sizeof m), memset(&back, 0, sizeof back);
    uint64_t call[MOST], got[MOST + 1] = { 0 };
    m.a0 = next_random(), m.a1 = next_random(), m.a2 = next_random() & 1, m.a3 = next_random();
    m.a4 = next_random(), m.a5 = next_random(), m.a6 = next_random(), m.a7 = next_random(), m.a8 = next_random();
    m.a9 = next_random(), m.a10 = next_random(), m.a11 = next_random(), m.a12 = next_random();
    m.a13 = next_random(), m.a14 = next_random(), m.a15 = next_random(), m.a16 = next_random() % 3;
    size_t count = over(call, every_scalars_put(&m, call), got);
    if (!every_scalars_get(&back, got, count) || memcmp(&m, &back, sizeof m)) printf("scalars differ\n"), exit(6);
}

#define FILL_SPOT(s) ((s).f0 = next_random(), (s).f1 = next_random(), (s).f3 = next_random() % 3, \
    memcpy((s).f2, &(uint64_t[2]){ next_random(), next_random() }, 16))

static void structs(void)
{
    struct every_structs m, back;
    memset(&m, 0, sizeof m), memset(&back, 0, sizeof back);
    uint64_t call[MOST], got[MOST + 1] = { 0 };
    m.a0 = 1, FILL_SPOT(m.a1.f0[0]), FILL_SPOT(m.a1.f0[1]), m.a1.f1 = next_random() & 1, FILL_SPOT(m.a2);
    memset(m.a3, (int)(next_random() & 255), 16);
    size_t count = over(call, every_structs_put(&m, call), got);
    if (!every_structs_get(&back, got, count) || memcmp(&m, &back, sizeof m)) printf("structs differ\n"), exit(7);
}

static void varying(void)
{
    struct every_varying m, back;
    memset(&m, 0, sizeof m), memset(&back, 0, sizeof back);
    uint64_t call[MOST], got[MOST + 1] = { 0 };
    m.a0.count = next_random() % 41;
    for (unsigned k = 0; k < m.a0.count; k++) m.a0.bytes[k] = (char)(next_random() % 255 + 1);
    m.a1.count = next_random() % 65;
    for (unsigned k = 0; k < m.a1.count; k++) m.a1.items[k] = next_random();
    m.a2 = next_random(), m.a3.count = next_random() % 4;
    for (unsigned k = 0; k < m.a3.count; k++) FILL_SPOT(m.a3.items[k]);
    FILL_SPOT(m.a4.f0[0]), FILL_SPOT(m.a4.f0[1]);
    size_t count = over(call, every_varying_put(&m, call), got);
    if (!every_varying_get(&back, got, count) || memcmp(&m, &back, sizeof m)) printf("varying differ\n"), exit(8);
    /* a tape that is cut, and one that goes on, are none */
    if (every_varying_get(&back, got, count - 1) || every_varying_get(&back, got, count + 1)) exit(9);
    m.a0.count = 41;
    if (every_varying_put(&m, call)) exit(10);
}

static char *text_of(const char *file, size_t *length)
{
    static char text[1 << 16];
    FILE *from = fopen(file, "rb");
    if (!from) exit(11);
    *length = fread(text, 1, sizeof text, from);
    fclose(from);
    return text;
}

int main(int argc, char **argv)
{
    if (argc != 3) return 12;
    size_t length;
    char *text = text_of(argv[1], &length);
    if (fl_ends_of_text(text, length, (unsigned)atoi(argv[2]), 64, &one, &two, 0)) return 13;
    for (int k = 0; k < TIMES; k++) scalars(), structs(), varying();
    struct every_nothing none = { 0 };
    uint64_t call[1], got[MOST + 1];
    size_t count = over(call, every_nothing_put(&none, call), got);
    if (!every_nothing_get(&none, got, count)) return 14;
    printf("%d calls of each message as they were\n", TIMES);
    fl_free_end(&one);
    fl_free_end(&two);
    return 0;
}
