/* A ring between two processes, and an rpc by ends over another: every block of the library lies in pages that both
 * share, on cache lines of its own, since the three symbols by which it takes memory are ours. A ring's words are one
 * block of 64 bytes a slot, so each slot is a line. The pages are mapped before the fork, so they lie at one
 * address; behind it each process takes memory from a half of its own. */
#include <flounder.h>
#include <stdio.h>
#include <sched.h>
#include <sys/mman.h>
#include <sys/wait.h>
#include <unistd.h>

enum { PAGES = 1 << 23, LINE = 64, FRAGMENTS = 200000, RPCS = 2000 };
enum { SQUARE, ANSWER };

static const char text[] = "interface squares \"s\" { rpc square(in uint64 x, out uint64 y); };";
static char *arena;
static size_t used, most = PAGES / 2;

struct flroom rattle_alloc(size_t size, size_t align)
{
    size_t room = ((size ? size : align) + LINE - 1) / LINE * LINE;
    if (room > most - used) return (struct flroom){ 0, 0 };
    void *at = arena + used;
    used += room;
    return (struct flroom){ 1, at };
}

struct flroom rattle_realloc(void *old, size_t kept, size_t size, size_t align)
{
    struct flroom room = rattle_alloc(size, align);
    if (room.is_there) __builtin_memcpy(room.at, old, kept);
    return room;
}

void rattle_dealloc(void *at)
{
    /* the pages go as a whole */
    (void)at;
}

/* Puts so many fragments, and takes as many: those of the other process in their order. */
static int exchange(fl_side *side, uint64_t mine, uint64_t theirs)
{
    uint64_t sent = 0, got = 0, fragment[8];
    unsigned sight;
    while (sent < FRAGMENTS || got < FRAGMENTS) {
        int moved = 0;
        if (sent < FRAGMENTS) {
            uint64_t next[8] = { mine + sent, sent, ~sent, 0, 0, 0, mine, 2 };
            unsigned fault = fl_put(side, next);
            if (fault && fault != FL_FULL) return 1;
            if (!fault) sent++, moved = 1;
        }
        if (fl_take(side, fragment, &sight)) return 2;
        if (sight != FL_NOTHING) moved = 1;
        if (sight == FL_FRAGMENT) {
            if (fragment[0] != theirs + got || fragment[1] != got || fragment[2] != ~got) return 3;
            if (fragment[6] != theirs) return 4;
            got++;
        }
        fl_tell(side);
        if (!moved) sched_yield();
    }
    return 0;
}

static unsigned send(fl_end *end, uint64_t message, uint64_t number)
{
    unsigned came, fault = fl_call(end, (uint64_t[2]){ message, number }, 2);
    do if (!fault) fault = fl_write(end, &came, 0);
    while (!fault && came == FL_WROTE);
    return fault;
}

static unsigned receive(fl_end *end, uint64_t call[2])
{
    uint64_t count;
    unsigned came, fault;
    do {
        if ((fault = fl_receive(end, &came))) return fault;
        if (came == FL_EMPTY) sched_yield();
    } while (came != FL_CALL);
    return fl_read(end, call, 2, &count);
}

/* The child: its fragments, and then answers until it is asked for the square of 0. */
static int child_does(fl_side *side, fl_end *end)
{
    uint64_t call[2] = { 0 };
    int failed = exchange(side, 2000000000, 1000000000);
    used = PAGES / 2, most = PAGES;
    while (!failed && !(failed = receive(end, call) != 0) && call[1]) failed = send(end, ANSWER, call[1] * call[1]) != 0;
    return failed;
}

int main(void)
{
    arena = mmap(0, PAGES, PROT_READ | PROT_WRITE, MAP_SHARED | MAP_ANONYMOUS, -1, 0);
    if (arena == MAP_FAILED) return 1;
    fl_side one, two;
    fl_end client, server;
    if (fl_duo(64, &one, &two) || fl_ends_of_text(text, sizeof text - 1, 1, 16, &client, &server, 0)) return 2;
    pid_t child = fork();
    if (child < 0) return 3;
    if (child == 0) _exit(child_does(&two, &server));
    int here = exchange(&one, 1000000000, 2000000000), status;
    uint64_t call[2], sum = 0;
    for (uint64_t x = RPCS; !here && x; x--) {
        if (send(&client, SQUARE, x) || receive(&client, call) || call[0] != ANSWER) return 4;
        sum += call[1];
    }
    if (send(&client, SQUARE, 0) || waitpid(child, &status, 0) != child || !WIFEXITED(status)) return 5;
    int there = WEXITSTATUS(status);
    printf("%d fragments each way between two processes: %d here, %d there\n", FRAGMENTS, here, there);
    printf("%d squares came back, %llu in all\n", RPCS, (unsigned long long)sum);
    fl_free_side(&one);
    fl_free_side(&two);
    fl_free_end(&client);
    fl_free_end(&server);
    return here || there;
}
