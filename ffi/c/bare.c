/* A ring without an operating system: no library is linked, memory comes from an array, and the program
 * begins at _start. (It asks the kernel of the machine that tries it to write a line and to end, by two
 * calls at the end.) */
#include <flounder.h>

static _Alignas(64) char arena[1 << 18];
static size_t used;

struct flroom rattle_alloc(size_t size, size_t align)
{
    size_t room = ((size ? size : align) + 63) / 64 * 64;
    if (room > sizeof arena - used) return (struct flroom){ 0, 0 };
    void *at = arena + used;
    used += room;
    return (struct flroom){ 1, at };
}

void *memcpy(void *to, const void *from, size_t count)
{
    for (size_t k = 0; k < count; k++) ((volatile char *)to)[k] = ((const char *)from)[k];
    return to;
}

void *memmove(void *to, const void *from, size_t count)
{
    if ((char *)to <= (const char *)from) return memcpy(to, from, count);
    while (count--) ((volatile char *)to)[count] = ((const char *)from)[count];
    return to;
}

void *memset(void *to, int byte, size_t count)
{
    for (size_t k = 0; k < count; k++) ((volatile char *)to)[k] = (char)byte;
    return to;
}

struct flroom rattle_realloc(void *old, size_t kept, size_t size, size_t align)
{
    struct flroom room = rattle_alloc(size, align);
    if (room.is_there) memcpy(room.at, old, kept);
    return room;
}

void rattle_dealloc(void *at)
{
    (void)at;
}

static long system_call(long number, long a, long b, long c)
{
    long answer;
    __asm__ volatile("syscall" : "=a"(answer) : "a"(number), "D"(a), "S"(b), "d"(c) : "rcx", "r11", "memory");
    return answer;
}

static unsigned run(void)
{
    fl_side one, two;
    uint64_t fragment[8];
    unsigned sight;
    if (fl_duo(8, &one, &two)) return 1;
    for (uint64_t k = 0; k < 100000; k++) {
        uint64_t next[8] = { k, k, k, k, k, k, k, 2 };
        if (fl_put(&one, next)) return 2;
        if (fl_take(&two, fragment, &sight) || sight != FL_FRAGMENT || fragment[6] != k) return 3;
        next[0] = k + 1;
        if (fl_put(&two, next)) return 4;
        if (fl_take(&one, fragment, &sight) || sight != FL_FRAGMENT || fragment[0] != k + 1) return 5;
    }
    /* the ring is full once seven stand in it: the last slot is kept for an acknowledgement */
    unsigned put = 0;
    while (put < 100 && fl_put(&one, fragment) == FL_OK) put++;
    return put == 7 ? 0 : 6;
}

void _start(void)
{
    __asm__ volatile("and $-16, %rsp");
    unsigned failed = run();
    static const char well[] = "without an operating system: 100000 each way, full at 7\n";
    if (!failed) system_call(1, 1, (long)well, sizeof well - 1);
    system_call(60, (long)failed, 0, 0);
    for (;;) { }
}
