/* Calls of an interface between two threads. The client asks for squares and for echoes. The server answers
 * squares by itself; echoes are answered by a reply rule. Who finds nothing to do sleeps at a doorbell. */
#include <flounder.h>
#include <pthread.h>
#include <stdio.h>
#include <string.h>

static const char text[] =
    "interface desk \"answers what it is asked\" {\n"
    "    rpc square(in uint64 x, out uint64 y);\n"
    "    rpc echo(in string line[200], out string line_again[200]);\n"
    "    message bye();\n"
    "};\n";
/* messages are numbered as they stand, an rpc has two */
enum { SQUARE, SQUARE_ANSWER, ECHO, ECHO_ANSWER, BYE };
enum { CALLS = 20000, MOST = 202 };

struct bell { pthread_mutex_t lock; pthread_cond_t rung; int news; };
struct party { fl_end end; struct bell bell; struct party *other; };

static void ring_bell(struct bell *bell)
{
    pthread_mutex_lock(&bell->lock);
    bell->news = 1;
    pthread_cond_signal(&bell->rung);
    pthread_mutex_unlock(&bell->lock);
}

static void sleep_at(struct bell *bell)
{
    pthread_mutex_lock(&bell->lock);
    while (!bell->news) pthread_cond_wait(&bell->rung, &bell->lock);
    bell->news = 0;
    pthread_mutex_unlock(&bell->lock);
}

/* One fragment out and one in, and what was taken told. Rings the other side's bell where something moved, since
 * a fragment or room for one may have come of it. FL_CALL in `*came`: a call is to be read. */
static unsigned step(struct party *party, int *moved, unsigned *came)
{
    unsigned wrote, fault = fl_write(&party->end, &wrote, 0);
    if (!fault) fault = fl_receive(&party->end, came);
    if (fault) return fault;
    *moved = wrote == FL_WROTE || *came != FL_EMPTY;
    if (*moved) {
        fl_tell_end(&party->end);
        ring_bell(&party->other->bell);
    }
    return FL_OK;
}

/* Makes a call, and writes all of it. */
static unsigned send(struct party *party, uint64_t *call, size_t count)
{
    unsigned fault = fl_call(&party->end, call, count), wrote;
    while (!fault) {
        fault = fl_write(&party->end, &wrote, 0);
        if (fault || wrote == FL_IDLE) break;
        ring_bell(&party->other->bell);
        if (wrote == FL_NO_ROOM) sleep_at(&party->bell);
    }
    return fault;
}

/* The next call that comes. */
static unsigned next(struct party *party, uint64_t *call, uint64_t *count)
{
    for (;;) {
        int moved;
        unsigned came, fault = step(party, &moved, &came);
        if (fault) return fault;
        if (came == FL_CALL) return fl_read(&party->end, call, MOST, count);
        if (!moved) sleep_at(&party->bell);
    }
}

static void *serve(void *given)
{
    struct party *server = given;
    uint64_t call[MOST], count;
    for (;;) {
        if (next(server, call, &count)) return given;
        if (call[0] == BYE) return 0;
        if (call[0] == SQUARE) {
            uint64_t answer[2] = { SQUARE_ANSWER, call[1] * call[1] };
            if (send(server, answer, 2)) return given;
        }
    }
}

static unsigned run(struct party *client)
{
    uint64_t sum = 0, echoed = 0, call[MOST], count;
    for (uint64_t k = 0; k < CALLS; k++) {
        uint64_t square[2] = { SQUARE, k };
        if (send(client, square, 2) || next(client, call, &count) || call[0] != SQUARE_ANSWER) return 1;
        sum += call[1];
        /* a text is its length and then its bytes */
        uint64_t line[MOST] = { ECHO, k % 200 };
        for (uint64_t at = 0; at < k % 200; at++) line[2 + at] = 'a' + at % 26;
        if (send(client, line, 2 + k % 200) || next(client, call, &count)) return 2;
        if (call[0] != ECHO_ANSWER || count != 2 + k % 200) return 3;
        if (memcmp(call + 1, line + 1, (count - 1) * sizeof *call)) return 4;
        echoed += call[1];
    }
    uint64_t bye = BYE;
    if (send(client, &bye, 1)) return 5;
    printf("%d rpcs each: sum of squares %llu, %llu bytes echoed\n", CALLS, (unsigned long long)sum,
        (unsigned long long)echoed);
    return 0;
}

static void tell(const char *what, unsigned answer)
{
    printf("%s: %u\n", what, answer);
}

/* What a caller gets wrong is told. */
static void mistakes(fl_end *end)
{
    uint64_t none[1] = { 9 }, misfit[3] = { SQUARE, 1, 2 }, right[2] = { SQUARE, 1 }, room[1], count, place;
    unsigned came;
    fl_end a, b;
    tell("no such message", fl_call(end, none, 1));
    tell("a tape that doesn't fit", fl_call(end, misfit, 3));
    tell("no number", fl_call(end, right, 0));
    tell("a call", fl_call(end, right, 2));
    tell("another, while it is in transmission", fl_call(end, right, 2));
    tell("nothing comes", fl_receive(end, &came) || came);
    tell("nothing to read", fl_read(end, room, 1, &count) || count);
    tell("no end", fl_write(0, &came, 0));
    const char wrong[] = "interface i { message m(uint7 x); };";
    tell("a text with a fault", fl_ends_of_text(wrong, sizeof wrong - 1, 1, 16, &a, &b, &place));
    tell("at byte", (unsigned)place);
    tell("plan 3", fl_ends_of_text(text, sizeof text - 1, 3, 16, &a, &b, 0));
    tell("no image", fl_ends_of_image("FLAN", 4, 16, &a, &b));
}

int main(void)
{
    static struct party client = { .bell = { PTHREAD_MUTEX_INITIALIZER, PTHREAD_COND_INITIALIZER, 0 } },
                        server = { .bell = { PTHREAD_MUTEX_INITIALIZER, PTHREAD_COND_INITIALIZER, 0 } };
    client.other = &server;
    server.other = &client;
    if (fl_ends_of_text(text, sizeof text - 1, 1, 16, &client.end, &server.end, 0)) return 1;
    if (fl_reply_rule(&server.end, ECHO, ECHO_ANSWER)) return 2;
    pthread_t thread;
    if (pthread_create(&thread, 0, serve, &server)) return 3;
    unsigned failed = run(&client);
    if (failed) return 10 + failed;
    void *served;
    pthread_join(thread, &served);
    if (served) return 4;
    mistakes(&client.end);
    fl_free_end(&client.end);
    fl_free_end(&server.end);
    return 0;
}
