/* A server that dies is started anew. Client and server are two processes. What is made before the fork lies in
 * pages that both share, on cache lines of its own; what either takes later is its own. When the server is
 * gone, the client lets both ends go with their pages, makes new ones, and asks again what wasn't answered. */
#include <flounder.h>
#include <sched.h>
#include <signal.h>
#include <stdio.h>
#include <stdlib.h>
#include <string.h>
#include <sys/mman.h>
#include <sys/wait.h>
#include <unistd.h>

enum { PAGES = 1 << 20, LINE = 64, CALLS = 40, LIVES = 7 };

static char *arena;
static size_t used;
static int shared; /* whether blocks are laid in the pages now */

struct flroom rattle_alloc(size_t size, size_t align)
{
    size_t room = ((size ? size : align) + LINE - 1) / LINE * LINE;
    void *at = 0;
    if (!shared) at = malloc(room);
    else if (room <= PAGES - used) at = arena + used, used += room;
    return (struct flroom){ at != 0, at };
}

void rattle_dealloc(void *at)
{
    if ((char *)at < arena || (char *)at >= arena + PAGES) free(at);
}

struct flroom rattle_realloc(void *old, size_t kept, size_t size, size_t align)
{
    struct flroom room = rattle_alloc(size, align);
    if (!room.is_there) return room;
    memcpy(room.at, old, kept);
    rattle_dealloc(old);
    return room;
}

static const char text[] = "interface squares \"s\" { rpc square(in uint64 x, out uint64 y); };";
enum { SQUARE, ANSWER };

/* The server's process, which dies after so many answers without a word. */
static void serve(fl_end *end)
{
    uint64_t call[2], count;
    unsigned came;
    for (int answered = 0; answered < LIVES;) {
        if (fl_write(end, &came, 0) || fl_receive(end, &came)) _exit(1);
        if (came == FL_EMPTY) sched_yield();
        if (came != FL_CALL) continue;
        if (fl_read(end, call, 2, &count)) _exit(2);
        call[0] = ANSWER, call[1] *= call[1], answered++;
        if (fl_call(end, call, 2) || fl_write(end, &came, 0)) _exit(3);
        fl_tell_end(end);
    }
    _exit(0);
}

/* Both ends, in fresh pages; the server's in a process of its own. */
static pid_t start(fl_end *client)
{
    fl_end server;
    used = 0, shared = 1;
    unsigned fault = fl_ends_of_text(text, sizeof text - 1, 1, 16, client, &server, 0);
    shared = 0;
    if (fault) exit(1);
    pid_t pid = fork();
    if (pid == 0) serve(&server);
    return pid;
}

/* The answer, or 0 where the server is gone. */
static int ask(fl_end *client, pid_t server, uint64_t number, uint64_t *answer)
{
    uint64_t call[2] = { SQUARE, number }, count;
    unsigned came;
    if (fl_call(client, call, 2)) exit(2);
    for (int gone = 0;;) {
        if (fl_write(client, &came, 0) || fl_receive(client, &came)) exit(3);
        fl_tell_end(client);
        if (came == FL_CALL) break;
        if (came != FL_EMPTY) continue;
        /* what it wrote before it died is looked at once more */
        if (gone) return 0;
        gone = waitpid(server, 0, WNOHANG) == server;
        sched_yield();
    }
    if (fl_read(client, call, 2, &count) || call[0] != ANSWER) exit(4);
    *answer = call[1];
    return 1;
}

int main(void)
{
    arena = mmap(0, PAGES, PROT_READ | PROT_WRITE, MAP_SHARED | MAP_ANONYMOUS, -1, 0);
    if (arena == MAP_FAILED) return 1;
    fl_end client;
    pid_t server = start(&client);
    uint64_t sum = 0, starts = 1, answer;
    for (uint64_t k = 0; k < CALLS; k++) {
        while (!ask(&client, server, k, &answer)) {
            /* The server's end died with it; ours is freed, and the pages are used anew. */
            fl_free_end(&client);
            server = start(&client), starts++;
        }
        sum += answer;
    }
    fl_free_end(&client);
    kill(server, SIGTERM);
    waitpid(server, 0, 0);
    printf("%d answers from %llu servers, sum of squares %llu\n", CALLS, (unsigned long long)starts,
        (unsigned long long)sum);
    return 0;
}
