/* Random calls through the header, right and wrong ones: `random SEED LINES SCRIPT TRANSCRIPT` writes a script for
 * `flounder exec`, does the same by the library, and writes what the script's transcript has to be. What a script
 * can't ask is asked between its lines, and has to be refused and change nothing. Each call goes through stubs alone
 * too. `ffi/random` compares. */
#include <flounder.h>
#include <stdarg.h>
#include <stdio.h>
#include <stdlib.h>
#include <string.h>

enum { PLAIN, ECHO, ECHO_AGAIN, LONG, NONE, MOST = 400 };
static const char *const names[] = { "plain", "echo_call", "echo_response", "long", "nothing" };
static const char text[] =
    "interface i {\n"
    "    message plain(uint8 a, int16 b);\n"
    "    rpc echo(in string line[100], out string again[100]);\n"
    "    message long(uint64 n, uint8 bytes[k, 300]);\n"
    "};\n";

/* An end: its names in scripts, how many fragments of its call are written, how many wait for it. */
struct party { fl_end end; const char *name, *dispatcher; unsigned written, waiting; };
static struct party party[2] = { { .name = "p.c", .dispatcher = "d" }, { .name = "p.s", .dispatcher = "e" } };
static fl_program program;
static fl_sender sender;
static fl_receiver receiver;
static FILE *script, *transcript;
static uint64_t seed;

static uint64_t pick(uint64_t below)
{
    seed ^= seed << 13, seed ^= seed >> 7, seed ^= seed << 17;
    return seed % below;
}

static void stop(const char *why)
{
    fprintf(stderr, "%s\n", why);
    exit(1);
}

static void wants(const char *what, unsigned answer, unsigned wanted)
{
    if (answer != wanted) stop(what);
}

static void tell(unsigned fault, const char *done)
{
    if (fault) fprintf(transcript, "refused E%u\n", fault);
    else fprintf(transcript, "%s\n", done);
}

/* A call's numbers as a script has them. */
static void print_call(FILE *to, const uint64_t *call, size_t count)
{
    fprintf(to, "%s(", names[call[0] < NONE ? call[0] : NONE]);
    if (call[0] == PLAIN && count == 3) {
        long long b = call[2] < 65536 ? (int16_t)call[2] : (long long)call[2];
        fprintf(to, "%llu, %lld", (unsigned long long)call[1], b);
    } else if (call[0] == LONG) {
        fprintf(to, "%llu, [", (unsigned long long)call[1]);
        for (size_t k = 3; k < count; k++) fprintf(to, "%s%llu", k > 3 ? ", " : "", (unsigned long long)call[k]);
        fputc(']', to);
    } else if (call[0] == ECHO || call[0] == ECHO_AGAIN) {
        fputc('"', to);
        for (size_t k = 2; k < count; k++) fputc((int)call[k], to);
        fputc('"', to);
    } else if (count > 1) {
        fprintf(to, "%llu", (unsigned long long)call[1]);
    }
    fputs(")\n", to);
}

/* A call, which fits or doesn't. */
static size_t some_call(uint64_t *call)
{
    size_t count;
    int wrong = pick(4) == 0;
    call[0] = pick(4);
    if (call[0] == PLAIN) {
        call[1] = pick(256) + (wrong && pick(2) ? 256 : 0);
        call[2] = wrong && pick(2) ? 65536 + pick(9) : pick(65536);
        return wrong && pick(3) == 0 ? 2 : 3;
    }
    if (call[0] == LONG) {
        call[1] = pick(2) ? pick(~0ull) : pick(9);
        count = wrong ? 301 : pick(pick(2) ? 8 : 301);
        call[2] = count;
        for (size_t k = 0; k < count; k++) call[3 + k] = pick(256);
        return 3 + count;
    }
    count = wrong ? 101 : pick(pick(2) ? 8 : 101);
    call[1] = count;
    for (size_t k = 0; k < count; k++) call[2 + k] = 'a' + pick(26);
    if (wrong && pick(2)) return call[0] = 4 + pick(70000), call[1] = 1, 2;
    return 2 + count;
}

/* The call by stubs alone: its fragments make it again, and fragments that can't stand between them are told. */
static void by_stubs(uint64_t *call, size_t count, unsigned wanted)
{
    uint64_t fragment[8], wrong[8] = { 0 }, room[MOST], got;
    unsigned sight, came = FL_PART, parts = 0;
    wants("a start", fl_start(&sender, call, count), wanted);
    if (wanted) return;
    wants("a second start", fl_start(&sender, call, count), FL_BUSY);
    while (!fl_next_fragment(&sender, fragment, &sight) && sight == FL_FRAGMENT) {
        /* a first fragment inside the call, or none before it */
        wrong[7] = parts ? 2 : 0;
        if (pick(4) == 0) wants("a wrong feed", fl_feed(&receiver, wrong, &came), parts ? 61 : 60);
        wants("a feed", fl_feed(&receiver, fragment, &came), 0);
        parts++;
    }
    wants("a whole call", came, FL_CALL);
    wants("a feed before a read", fl_feed(&receiver, wrong, &came), FL_UNREAD);
    wants("room for one too few", fl_read_fed(&receiver, room, count - 1, &got), FL_WRONG_ROOM);
    wants("a read", fl_read_fed(&receiver, room, MOST, &got), 0);
    if (got != count || memcmp(room, call, count * sizeof *call)) stop("another call of fragments");
    wants("nothing to read", fl_read_fed(&receiver, room, MOST, &got) || got, 0);
}

/* A fragment was put, and so many follow. */
static void wrote(struct party *at, struct party *other, uint64_t left)
{
    at->written++, other->waiting++;
    fprintf(transcript, "written %u of %u\n", at->written, at->written + (unsigned)left);
    if (!left) at->written = 0;
}

/* A call by itself, or with its first write in one. */
static void make_call(struct party *at, struct party *other)
{
    uint64_t call[MOST], left = 0;
    unsigned came = FL_IDLE, fault;
    size_t count = some_call(call);
    int sends = pick(2) && other->waiting <= 400;
    fprintf(script, "call %s ", at->name);
    print_call(script, call, count);
    fault = sends ? fl_send(&at->end, call, count, &came, &left) : fl_call(&at->end, call, count);
    tell(fault, "accepted");
    wants("what a send came to", came, sends && !fault ? FL_WROTE : FL_IDLE);
    if (came == FL_WROTE) {
        fprintf(script, "write %s\n", at->name);
        wrote(at, other, left);
    }
    by_stubs(call, count, fault == FL_BUSY ? 0 : fault);
}

static void write_one(struct party *at, struct party *other)
{
    unsigned came;
    uint64_t left;
    if (other->waiting > 400) return;
    fprintf(script, "write %s\n", at->name);
    wants("a write", fl_write(&at->end, &came, &left), 0);
    if (came == FL_NO_ROOM) stop("no room");
    if (came == FL_WROTE) wrote(at, other, left);
    else fputs("nothing\n", transcript);
}

static void tell_call(struct party *at, const uint64_t *call, size_t count)
{
    fprintf(transcript, "handle %s ", at->name);
    print_call(transcript, call, count);
}

static void read_call(struct party *at)
{
    uint64_t call[MOST], count, again;
    unsigned came;
    wants("a receive before a read", fl_receive(&at->end, &came), FL_UNREAD);
    wants("a take before a read", fl_take_call(&at->end, call, MOST, &came, &count), FL_UNREAD);
    wants("what that came to", came, FL_EMPTY);
    wants("room for one number", fl_read(&at->end, call, 1, &count), FL_WRONG_ROOM);
    uint64_t *room = malloc(count * sizeof *room);
    wants("room for one too few", fl_read(&at->end, room, count - 1, &again), FL_WRONG_ROOM);
    if (again != count) stop("another count");
    wants("a read", fl_read(&at->end, room, count, &again), 0);
    tell_call(at, room, count);
    free(room);
}

/* A receive by itself, or with its read in one, which may have too little room. */
static unsigned receive(struct party *at, uint64_t *call, uint64_t *count, int *is_read)
{
    unsigned came, fault;
    *is_read = pick(2) != 0;
    if (!*is_read) {
        wants("a receive", fl_receive(&at->end, &came), 0);
        return came;
    }
    fault = fl_take_call(&at->end, call, pick(4) ? MOST : 1, &came, count);
    if (fault == FL_WRONG_ROOM && came == FL_CALL && *count > 1) *is_read = 0;
    else wants("a take of a call", fault, 0);
    return came;
}

static void turn(struct party *at)
{
    uint64_t call[MOST], count;
    unsigned came;
    int is_read;
    fprintf(script, "turn %s\n", at->dispatcher);
    do came = receive(at, call, &count, &is_read);
    while (came == FL_ACKNOWLEDGED);
    fl_tell_end(&at->end);
    if (came == FL_EMPTY || (came == FL_HELD_BACK && !at->waiting)) fputs("nothing\n", transcript);
    else if (came == FL_HELD_BACK) fputs("full\n", transcript);
    else at->waiting--;
    if (came == FL_PART) fprintf(transcript, "part %s\n", at->name);
    if (came == FL_CALL && is_read) tell_call(at, call, count);
    else if (came == FL_CALL) read_call(at);
}

static void set_rule(struct party *at)
{
    unsigned from = pick(5), to = pick(5);
    if (pick(2)) from = ECHO, to = ECHO_AGAIN;
    fprintf(script, "reply %s %s %s\n", at->name, names[from], names[to]);
    tell(fl_reply_rule(&at->end, from, to), "ok");
}

/* A ring of some size, if there may be one: as many fragments as it holds come through in their order. */
static void by_ring(void)
{
    fl_side one, two;
    uint64_t put = 0, fragment[8];
    unsigned sight;
    size_t slots = pick(2) ? (size_t)1 << pick(12) : pick(3000);
    int may = slots >= 4 && slots <= 1024 && (slots & (slots - 1)) == 0;
    wants("a ring", fl_duo(slots, &one, &two), may ? 0 : FL_BAD_SIZE);
    if (!may && (one.at || two.at)) stop("a ring that wasn't made");
    if (!may) return;
    while (!fl_put(&one, (uint64_t[8]){ put, ~put, 0, 0, 0, 0, put, 2 })) put++;
    wants("fragments in a ring", (unsigned)put, (unsigned)slots - 1);
    wants("a put of none", fl_put(&one, (uint64_t[8]){ [7] = 4 }), FL_NOT_ZERO);
    wants("a call at a side", fl_call(&(fl_end){ one.at }, fragment, 1), FL_NO_SUCH_OPERATION);
    for (uint64_t k = 0; k < put; k++) {
        wants("a take", fl_take(&two, fragment, &sight), 0);
        if (sight != FL_FRAGMENT || fragment[0] != k || fragment[1] != ~k || fragment[6] != k) stop("another fragment");
    }
    wants("a tell", fl_tell(&two), 0);
    wants("a put after a tell", fl_put(&one, fragment), 0);
    fl_free_side(&one);
    fl_free_side(&two);
}

/* What a script can't ask. */
static void mistake(struct party *at)
{
    uint64_t numbers[9] = { 0 }, count;
    unsigned came;
    fl_end none = { 0 };
    fl_side side = { at->end.at };
    switch (pick(18)) {
    case 0: wants("no end", fl_call(&none, numbers, 1), FL_NULL); break;
    case 1: wants("no numbers", fl_call(&at->end, 0, 1), FL_NULL); break;
    case 2: wants("no number", fl_call(&at->end, numbers, 0), FL_WRONG_ROOM); break;
    case 3: wants("no place", fl_receive(&at->end, 0), FL_NULL); break;
    case 4: wants("a put at an end", fl_put(&side, numbers), FL_NO_SUCH_OPERATION); break;
    case 5: wants("a take at an end", fl_take(&side, numbers, &came), FL_NO_SUCH_OPERATION); break;
    case 6: wants("no operation", flounder_use(at->end.at, (pick(2) ? 12 : 18) + pick(4), numbers, pick(9)).fault,
        FL_NO_SUCH_OPERATION); break;
    case 7: wants("a rule of three", flounder_use(at->end.at, 10, numbers, 3).fault, FL_WRONG_ROOM); break;
    case 8: wants("no such message", fl_sizes(&program, 4 + pick(9), numbers, &came), FL_NO_SUCH_MESSAGE); break;
    case 9: wants("sizes of nothing", flounder_use(program.at, 13, numbers, 2).fault, FL_WRONG_ROOM); break;
    case 10: wants("no run", flounder_make_run(program.at, 3 + pick(9), &none.at).fault, FL_NO_SUCH_OPERATION); break;
    case 11: wants("a run of an end", flounder_make_run(at->end.at, 1, &none.at).fault, FL_NO_SUCH_OPERATION); break;
    case 12: wants("a short fragment", flounder_use(receiver.at, 15, numbers, pick(8)).fault, FL_WRONG_ROOM); break;
    case 13: by_ring(); break;
    case 14: wants("a send of no numbers", fl_send(&at->end, 0, 1, &came, 0), FL_NULL); break;
    case 15: wants("a send of no number", fl_send(&at->end, numbers, 0, &came, 0), FL_WRONG_ROOM); break;
    case 16: wants("a take of a call at a side", fl_take_call(&(fl_end){ receiver.at }, numbers, 9, &came, &count),
        FL_NO_SUCH_OPERATION); break;
    default: wants("nothing to read", fl_read(&at->end, numbers, pick(9), &count) || count, 0);
    }
    if (none.at) stop("a handle that wasn't made");
}

int main(int argc, char **argv)
{
    if (argc != 5 || !(script = fopen(argv[3], "wb")) || !(transcript = fopen(argv[4], "wb"))) return 2;
    seed = strtoull(argv[1], 0, 10) * 2654435761u + 88172645463325252ull;
    fprintf(script, "idl\n%s.\ndisp d 0\ndisp e 0\nexport s e i\nbind p d i s local 1024\n", text);
    fputs("ok\nok\nok\nok\nok\n", transcript);
    if (fl_ends_of_text(text, sizeof text - 1, 1, 1024, &party[0].end, &party[1].end, 0)) return 3;
    if (fl_program_of_text(text, sizeof text - 1, 1, &program, 0)) return 4;
    if (fl_send_run(&program, &sender) || fl_receive_run(&program, &receiver)) return 5;
    for (long line = strtol(argv[2], 0, 10); line > 0; line--) {
        unsigned which = (unsigned)pick(2);
        struct party *at = &party[which], *other = &party[1 - which];
        switch (pick(12)) {
        case 0: case 1: case 2: make_call(at, other); break;
        case 3: case 4: case 5: write_one(at, other); break;
        case 6: case 7: case 8: turn(at); break;
        case 9: if (pick(8) == 0) set_rule(at); break;
        default: mistake(at);
        }
    }
    fl_free_end(&party[0].end);
    fl_free_end(&party[1].end);
    fl_free_program(&program);
    fl_free_send_run(&sender);
    fl_free_receive_run(&receiver);
    fclose(script);
    fclose(transcript);
    return 0;
}
