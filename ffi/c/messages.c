/* Calls of each message of an interface by the structs of its header: numbers that were picked give a struct, which
 * gives these numbers again; they go over from one end to the other, and what is read gives them too. `messages.h`,
 * which `ffi/try` makes, includes the header, and its MESSAGES(EACH) has the name of each message's struct. */
#include "messages.h"
#include <stdio.h>
#include <stdlib.h>
#include <string.h>

enum { TIMES = 300 };

static fl_end one, two;
static uint64_t seed = 1;

static uint64_t pick(uint64_t below)
{
    seed ^= seed << 13, seed ^= seed >> 7, seed ^= seed << 17;
    return seed % below;
}

static void stop(const char *message, const char *why)
{
    printf("%s: %s\n", message, why);
    exit(1);
}

/* Whether these numbers fit: then they go over, and are read. */
static int over(const char *message, uint64_t *call, size_t count, uint64_t *got)
{
    unsigned came, back;
    uint64_t read;
    unsigned fault = fl_call(&one, call, count);
    if (fault == FL_MISFIT) return 0;
    if (fault) stop(message, "the call is refused");
    do {
        if (fl_write(&one, &back, 0) || fl_receive(&two, &came)) stop(message, "a fragment is refused");
        fl_tell_end(&two);
        if (fl_receive(&one, &back)) stop(message, "an acknowledgement is refused");
    } while (came != FL_CALL);
    if (fl_read(&two, got, count, &read) || read != count) stop(message, "another count is read");
    return 1;
}

/* Small numbers, so that most are the numbers of some call if they are cut where it ends. Those that are all 0 fit. */
#define EACH(M) \
    static void M##_goes(void) \
    { \
        static uint64_t call[M##_most], again[M##_most], got[M##_most]; \
        static struct M m, back; \
        unsigned went = 0; \
        for (unsigned k = 0; k < TIMES; k++) { \
            size_t count = 0; \
            call[0] = M##_number; \
            for (size_t n = 1; n < M##_most; n++) call[n] = k ? pick(2 + pick(3)) : 0; \
            do \
                if (++count > M##_most) stop(#M, "no call begins with these numbers"); \
            while (!M##_get(&m, call, count)); \
            if (M##_put(&m, again) != count || memcmp(call, again, count * sizeof *call)) stop(#M, "its struct gives others"); \
            if (!over(#M, call, count, got)) continue; \
            if (!M##_get(&back, got, count) || M##_put(&back, again) != count) stop(#M, "what was read is no call of it"); \
            if (memcmp(call, got, count * sizeof *call) || memcmp(call, again, count * sizeof *call)) stop(#M, "others came"); \
            went++; \
        } \
        if (!went) stop(#M, "no call of it fits"); \
        messages++; \
    }

static unsigned messages;
MESSAGES(EACH)

int main(int argc, char **argv)
{
    static char text[1 << 16];
    FILE *from = argc == 3 ? fopen(argv[1], "rb") : 0;
    if (!from) return 2;
    size_t length = fread(text, 1, sizeof text, from);
    fclose(from);
    if (fl_ends_of_text(text, length, (unsigned)atoi(argv[2]), 64, &one, &two, 0)) return 3;
#define GOES(M) M##_goes();
    MESSAGES(GOES)
    printf("%u messages\n", messages);
    fl_free_end(&one);
    fl_free_end(&two);
    return 0;
}
