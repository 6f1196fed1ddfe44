/* Stubs alone: calls go between two processes over a pipe each way, a fragment of 64 bytes at a time, as they would
 * over any transport that keeps their order. */
#include <flounder.h>
#include <stdio.h>
#include <stdlib.h>
#include <sys/wait.h>
#include <unistd.h>

static const char text[] =
    "interface adder \"adds\" { rpc add(in uint64 numbers[n, 100], out uint64 sum); };";
enum { ADD, SUM };
enum { CALLS = 2000 };

/* A party: its runs, room for the longest call, and the pipes. */
struct party { fl_sender sender; fl_receiver receiver; uint64_t *call, most; int out, in; };

/* The runs of a party, of a program that both parties share before they part. */
static unsigned make(fl_program *program, struct party *party, int out, int in)
{
    unsigned fragments, fault = fl_sizes(program, ADD, &party->most, &fragments);
    if (fault) return fault;
    party->call = malloc(party->most * sizeof *party->call);
    party->out = out, party->in = in;
    fault = fl_send_run(program, &party->sender);
    return fault ? fault : fl_receive_run(program, &party->receiver);
}

static void let_go(struct party *party)
{
    fl_free_send_run(&party->sender);
    fl_free_receive_run(&party->receiver);
    free(party->call);
}

static unsigned send(struct party *party, size_t count)
{
    uint64_t fragment[8];
    unsigned sight, fault = fl_start(&party->sender, party->call, count);
    while (!fault && !(fault = fl_next_fragment(&party->sender, fragment, &sight)) && sight == FL_FRAGMENT)
        if (write(party->out, fragment, sizeof fragment) != sizeof fragment) return FL_FAILED;
    return fault;
}

/* The next call; *count is 0 where the other party is gone. */
static unsigned receive(struct party *party, uint64_t *count)
{
    uint64_t fragment[8];
    unsigned came = FL_PART, fault;
    for (*count = 0; came != FL_CALL;) {
        if (read(party->in, fragment, sizeof fragment) != sizeof fragment) return FL_OK;
        if ((fault = fl_feed(&party->receiver, fragment, &came))) return fault;
    }
    return fl_read_fed(&party->receiver, party->call, party->most, count);
}

/* Answers until the other party is gone. */
static int serve(struct party *party)
{
    uint64_t count, sum;
    int failed = 0;
    while (!failed && !receive(party, &count) && count) {
        sum = 0;
        for (uint64_t k = 2; k < count; k++) sum += party->call[k];
        party->call[0] = SUM, party->call[1] = sum;
        failed = send(party, 2) != 0;
    }
    let_go(party);
    return failed;
}

int main(void)
{
    int there[2], back[2];
    fl_program program;
    struct party party;
    uint64_t messages, count, sum = 0;
    if (pipe(there) || pipe(back)) return 1;
    if (fl_program_of_text(text, sizeof text - 1, 2, &program, 0) || fl_messages(&program, &messages)) return 2;
    pid_t server = fork();
    if (server == 0) close(there[1]), close(back[0]);
    else close(there[0]), close(back[1]);
    if (make(&program, &party, server ? there[1] : back[1], server ? back[0] : there[0])) return 3;
    fl_free_program(&program);
    if (server == 0) return serve(&party);
    for (uint64_t k = 0; k < CALLS; k++) {
        party.call[0] = ADD, party.call[1] = k % 101;
        for (uint64_t n = 0; n < k % 101; n++) party.call[2 + n] = k + n;
        if (send(&party, 2 + k % 101) || receive(&party, &count) || count != 2) return 4;
        sum += party.call[1];
    }
    printf("%llu messages, %llu numbers at most; %d sums came back, %llu in all\n", (unsigned long long)messages,
        (unsigned long long)party.most, CALLS, (unsigned long long)sum);
    /* what can be told */
    uint64_t wrong[8] = { 0 };
    unsigned came;
    party.call[0] = ADD, party.call[1] = 101;
    printf("no such message %u, a tape that doesn't fit %u, no first fragment %u, nothing to read %u\n",
        fl_start(&party.sender, &(uint64_t){ 2 }, 1), fl_start(&party.sender, party.call, 2),
        fl_feed(&party.receiver, wrong, &came), fl_read_fed(&party.receiver, party.call, 1, &count) || count);
    let_go(&party);
    close(there[1]), close(back[0]);
    int status;
    waitpid(server, &status, 0);
    return status != 0;
}
