/* The proved rings, ends and stubs of fl_c, for C. Link with libfl_c.a, and with c/lines.c, with liblibc_c.a of the
 * toolchain, or with three symbols of your own:
 *
 *     struct flroom rattle_alloc(size_t size, size_t align);
 *     struct flroom rattle_realloc(void *at, size_t kept, size_t size, size_t align);
 *     void rattle_dealloc(void *at);
 *
 * Who defines them decides where every block lies: docs/C.md. A block's size isn't told again: `kept` is how many
 * of its first bytes have to be as they were.
 *
 * What the caller owes, and nothing here can look at:
 * - A handle comes from a maker below, and was not freed. It isn't copied: a copy is the same thing.
 * - One call at a time at one handle. Two threads that share one handle order their calls themselves. Other
 *   handles each may be in a thread of its own, with no order between them: the sides of a ring, both ends of a
 *   binding, a program and its runs.
 * - A pointer to numbers leads to as many as the function says, aligned, which nobody else touches during
 *   the call.
 * What it can get wrong and is told: a null pointer, an operation that what the handle leads to doesn't have, a
 * ring size that can't be, a number of numbers that is wrong. */
#ifndef FLOUNDER_H
#define FLOUNDER_H
#include <stddef.h>
#include <stdint.h>

/* Faults. From 100 on: the caller's mistake, and nothing was done. The others have the numbers of
 * docs/FAULTS.md. */
enum {
    FL_OK = 0,
    FL_FULL = 30,              /* too few slots are free: try again once the other side took and acknowledged */
    FL_BAD_SIZE = 32,          /* a ring can't have this number of slots */
    FL_SPENT = 33,             /* the ring has carried 2^62 fragments: make a new one */
    FL_BUSY = 40,              /* a call is in transmission: write it first */
    FL_NO_SUCH_MESSAGE = 41,
    FL_MISFIT = 42,            /* the tape is that of no call of the message; of a rule, the types differ */
    FL_NOT_ZERO = 63,          /* padding or a reserved bit isn't zero; of a put: it only acknowledges */
    FL_FAILED = 64,            /* the end failed earlier: make new ends */
    FL_NO_MEMORY = 99,
    FL_NO_SUCH_OPERATION = 101,/* the handle leads to something that has no such operation, or makes no such run */
    FL_NO_SUCH_PLAN = 102,     /* plans are 1 and 2 */
    FL_WRONG_ROOM = 103,       /* too few numbers, or too many */
    FL_NULL = 104,             /* a null pointer */
    FL_UNREAD = 105            /* a call that was received is to be read first */
};

/* What a look or a take found. */
enum { FL_NOTHING = 0, FL_FRAGMENT = 1, FL_ACKNOWLEDGEMENT = 2 };

/* ---- what the archive has */

typedef struct { uint32_t fault, what; uint64_t count; } fl_answer;
struct flroom { uint64_t is_there; void *at; };

uint32_t flounder_make(size_t slots, uint8_t **one, uint8_t **two);
uint32_t flounder_make_text_ends(const uint8_t *text, size_t length, uint32_t plan, size_t slots, uint8_t **one,
    uint8_t **two, uint64_t *place);
uint32_t flounder_make_image_ends(const uint8_t *image, size_t length, size_t slots, uint8_t **one,
    uint8_t **two);
uint32_t flounder_make_text_program(const uint8_t *text, size_t length, uint32_t plan, uint8_t **program,
    uint64_t *place);
uint32_t flounder_make_image_program(const uint8_t *image, size_t length, uint8_t **program);
fl_answer flounder_make_run(uint8_t *program, uint32_t kind, uint8_t **run);
fl_answer flounder_use(uint8_t *handle, uint32_t what, uint64_t *numbers, size_t count);
/* What flounder_use does for 1, 2, 6, 7, 8, 9, 16 and 17; the first two on eight numbers, with no count. */
fl_answer flounder_put(uint8_t *handle, uint64_t numbers[8]);
fl_answer flounder_take(uint8_t *handle, uint64_t numbers[8]);
fl_answer flounder_call(uint8_t *handle, uint64_t *numbers, size_t count);
fl_answer flounder_write(uint8_t *handle, uint64_t *numbers, size_t count);
fl_answer flounder_receive(uint8_t *handle, uint64_t *numbers, size_t count);
fl_answer flounder_read(uint8_t *handle, uint64_t *numbers, size_t count);
fl_answer flounder_send(uint8_t *handle, uint64_t *numbers, size_t count);
fl_answer flounder_take_call(uint8_t *handle, uint64_t *numbers, size_t count);
void rattle_dealloc(void *at);

/* Frees what a handle leads to, and its own block. */
static inline void fl_free_at(uint8_t **at)
{
    if (!*at) return;
    flounder_use(*at, 5, (uint64_t *)8, 0);
    rattle_dealloc(*at);
    *at = 0;
}

/* ---- rings of two directions */

/* A side of a ring: it puts into one direction and takes from the other. */
typedef struct { uint8_t *at; } fl_side;

/* Makes a ring with `slots` slots each way (a power of two from 4 to 1024), and its two sides. On a fault of
 * the archive both are null; on FL_NULL nothing is written. Makers take memory, and ends do for their calls; sides never do. None waits. */
static inline unsigned fl_duo(size_t slots, fl_side *one, fl_side *two)
{
    if (!one || !two || one == two) return FL_NULL;
    one->at = two->at = 0;
    return flounder_make(slots, &one->at, &two->at);
}

/* Puts a fragment of eight numbers: seven words and a control word, whose bits 0 and 48 to 63 are the
 * ring's (they are written anew). Control 2 marks the first fragment of message 0. `fragment` is left as it
 * is. */
static inline unsigned fl_put(fl_side *side, uint64_t fragment[8])
{
    if (!side || !side->at || !fragment) return FL_NULL;
    return flounder_put(side->at, fragment).fault;
}

/* Takes what stands first. `*sight` says what that was: a fragment, which is written; one that only
 * acknowledges, or nothing: then `fragment` is left as it is. A take frees no slot for the other side
 * before it is acknowledged: every put back does that, and `fl_tell`. */
static inline unsigned fl_take(fl_side *side, uint64_t fragment[8], unsigned *sight)
{
    if (!sight) return FL_NULL;
    *sight = FL_NOTHING;
    if (!side || !side->at || !fragment) return FL_NULL;
    fl_answer answer = flounder_take(side->at, fragment);
    *sight = answer.what;
    return answer.fault;
}

/* What `fl_take` would take, which is left there. */
static inline unsigned fl_peek(fl_side *side, uint64_t fragment[8], unsigned *sight)
{
    if (!sight) return FL_NULL;
    *sight = FL_NOTHING;
    if (!side || !side->at || !fragment) return FL_NULL;
    fl_answer answer = flounder_use(side->at, 3, fragment, 8);
    *sight = answer.what;
    return answer.fault;
}

/* Acknowledges what was taken, where at least half of the slots are taken and not yet acknowledged; else
 * nothing. FL_FULL: there is something to tell, and no slot free for it: ask again later; of a ring
 * that is spent it stays so. */
static inline unsigned fl_tell(fl_side *side)
{
    if (!side || !side->at) return FL_NULL;
    return flounder_use(side->at, 4, (uint64_t *)8, 0).fault;
}

/* Frees a side. The other one may go on; the ring's words are freed with the second. */
static inline void fl_free_side(fl_side *side)
{
    if (side) fl_free_at(&side->at);
}

/* ---- ends of a binding, each over its side of a ring */

/* An end: calls of an interface go out of it and come to it, and it owns its side. Make both ends at once. */
typedef struct { uint8_t *at; } fl_end;

/* What a write came to. */
enum { FL_IDLE = 0, FL_WROTE = 1, FL_NO_ROOM = 2 };
/* What a receive came to. FL_HELD_BACK: the end has a reply rule, and 16 replies are to be written first. */
enum { FL_EMPTY = 0, FL_PART = 1, FL_ACKNOWLEDGED = 2, FL_HELD_BACK = 3, FL_CALL = 4 };

/* Makes both ends of the interface that a text stands for, laid out by plan 1 or 2, over a new ring. A fault
 * of 1 to 21 is the text's, and stands `*place` bytes from its start (`place` may be null). */
static inline unsigned fl_ends_of_text(const char *text, size_t length, unsigned plan, size_t slots, fl_end *one,
    fl_end *two, uint64_t *place)
{
    uint64_t unwanted;
    if (!text || !one || !two || one == two) return FL_NULL;
    if (!place) place = &unwanted;
    *place = 0;
    one->at = two->at = 0;
    return flounder_make_text_ends((const uint8_t *)text, length, plan, slots, &one->at, &two->at, place);
}

/* The same of an image, which `flounder compile` writes. Faults 80 to 85 are the image's. */
static inline unsigned fl_ends_of_image(const void *image, size_t length, size_t slots, fl_end *one, fl_end *two)
{
    if (!image || !one || !two || one == two) return FL_NULL;
    one->at = two->at = 0;
    return flounder_make_image_ends((const uint8_t *)image, length, slots, &one->at, &two->at);
}

/* Makes a call. `call` is the message's number, and then its tape: a number for each scalar (two's complement
 * in its bits) and for each byte of a text, a length before each string and sized array, in the plan's order.
 * Faults: 103 no number at all, 41 no such message, 42 the tape fits no call of it, 64 the end failed, 40 a call
 * is in transmission, 99 out of memory. */
static inline unsigned fl_call(fl_end *end, uint64_t *call, size_t count)
{
    if (!end || !end->at || !call) return FL_NULL;
    return flounder_call(end->at, call, count).fault;
}

/* Puts the next fragment of the call in transmission, if there is one and it has room. `*left`, unless null,
 * says after FL_WROTE how many of the call's fragments follow; else 0. */
static inline unsigned fl_write(fl_end *end, unsigned *came, uint64_t *left)
{
    if (!came) return FL_NULL;
    *came = FL_IDLE;
    if (!end || !end->at) return FL_NULL;
    fl_answer answer = flounder_write(end->at, (uint64_t *)8, 0);
    *came = answer.what;
    if (left) *left = answer.count;
    return answer.fault;
}

/* Takes a fragment. FL_CALL: a call is whole, and is to be read before the next receive (else FL_UNREAD).
 * Faults 60 to 63, 65, 66: what came can't follow what came before, and the end has failed for good; 64: it failed
 * earlier; 99: the fragment stays, receive again. */
static inline unsigned fl_receive(fl_end *end, unsigned *came)
{
    if (!came) return FL_NULL;
    *came = FL_EMPTY;
    if (!end || !end->at) return FL_NULL;
    fl_answer answer = flounder_receive(end->at, (uint64_t *)8, 0);
    *came = answer.what;
    return answer.fault;
}

/* Reads the call that was received: its message's number and its tape. `*count` says how many numbers these
 * are; 0 without a fault: there is no call. FL_WRONG_ROOM: there is room for fewer; 99: out of memory; the call
 * stays then. */
static inline unsigned fl_read(fl_end *end, uint64_t *call, size_t room, uint64_t *count)
{
    if (!end || !end->at || !call || !count) return FL_NULL;
    fl_answer answer = flounder_read(end->at, call, room);
    *count = answer.count;
    return answer.fault;
}

/* Makes a call as `fl_call` does, and puts its first fragment as `fl_write` does: both in one, for speed. FL_WROTE: it is
 * put, and `*left`, unless null, says how many follow; FL_NO_ROOM: the call is in transmission, and nothing of it is put.
 * What is left goes out by `fl_write`. With a fault FL_IDLE says that the call is refused, and FL_NO_ROOM that it is in
 * transmission all the same (33). */
static inline unsigned fl_send(fl_end *end, uint64_t *call, size_t count, unsigned *came, uint64_t *left)
{
    if (!came) return FL_NULL;
    *came = FL_IDLE;
    if (!end || !end->at || !call) return FL_NULL;
    fl_answer answer = flounder_send(end->at, call, count);
    *came = answer.what;
    if (left) *left = answer.fault ? 0 : answer.count;
    return answer.fault;
}

/* Takes a fragment as `fl_receive` does, and reads the call that it makes whole as `fl_read` does: both in one, for speed.
 * After FL_CALL without a fault `*count` numbers stand in `call`. With a fault FL_CALL says that a call was taken, and is to
 * be read by `fl_read`: FL_WRONG_ROOM: `*count` numbers are wanted; 99: out of memory. Else nothing is written to `call`. */
static inline unsigned fl_take_call(fl_end *end, uint64_t *call, size_t room, unsigned *came, uint64_t *count)
{
    if (!came) return FL_NULL;
    *came = FL_EMPTY;
    if (!end || !end->at || !call || !count) return FL_NULL;
    fl_answer answer = flounder_take_call(end->at, call, room);
    *came = answer.what;
    *count = answer.count;
    return answer.fault;
}

/* From now on each call of `message` that the end receives is answered by `reply` with the same arguments. */
static inline unsigned fl_reply_rule(fl_end *end, uint64_t message, uint64_t reply)
{
    uint64_t numbers[2] = { message, reply };
    if (!end || !end->at) return FL_NULL;
    return flounder_use(end->at, 10, numbers, 2).fault;
}

/* Whether a call is in transmission: 1 or 0. */
static inline unsigned fl_is_busy(fl_end *end, unsigned *busy)
{
    if (!busy) return FL_NULL;
    *busy = 0;
    if (!end || !end->at) return FL_NULL;
    fl_answer answer = flounder_use(end->at, 11, (uint64_t *)8, 0);
    *busy = answer.what;
    return answer.fault;
}

/* As fl_tell, at the end's side: call it where nothing is to be written back. */
static inline unsigned fl_tell_end(fl_end *end)
{
    if (!end || !end->at) return FL_NULL;
    return flounder_use(end->at, 4, (uint64_t *)8, 0).fault;
}

/* Frees an end with its side. */
static inline void fl_free_end(fl_end *end)
{
    if (end) fl_free_at(&end->at);
}

/* ---- programs and stubs alone, for fragments that go by a transport of one's own */

/* A program: an interface compiled under a plan. */
typedef struct { uint8_t *at; } fl_program;
/* A send run of a program: calls go in, and fragments come out. */
typedef struct { uint8_t *at; } fl_sender;
/* A receive run of a program: fragments go in, and calls come out. */
typedef struct { uint8_t *at; } fl_receiver;

/* Makes the program of the interface that a text stands for, laid out by plan 1 or 2, with faults as
 * `fl_ends_of_text`. */
static inline unsigned fl_program_of_text(const char *text, size_t length, unsigned plan, fl_program *program,
    uint64_t *place)
{
    uint64_t unwanted;
    if (!text || !program) return FL_NULL;
    if (!place) place = &unwanted;
    *place = 0;
    program->at = 0;
    return flounder_make_text_program((const uint8_t *)text, length, plan, &program->at, place);
}

/* The same of an image, with faults as `fl_ends_of_image`. */
static inline unsigned fl_program_of_image(const void *image, size_t length, fl_program *program)
{
    if (!image || !program) return FL_NULL;
    program->at = 0;
    return flounder_make_image_program((const uint8_t *)image, length, &program->at);
}

/* How many messages a program has: their numbers are 0 to one less. */
static inline unsigned fl_messages(fl_program *program, uint64_t *count)
{
    if (!count) return FL_NULL;
    *count = 0;
    if (!program || !program->at) return FL_NULL;
    fl_answer answer = flounder_use(program->at, 12, (uint64_t *)8, 0);
    *count = answer.count;
    return answer.fault;
}

/* How long the calls of a message are at most: `*numbers` as they are given to `fl_call`, the message's among
 * them, and `*fragments` on a ring. */
static inline unsigned fl_sizes(fl_program *program, uint64_t message, uint64_t *numbers, unsigned *fragments)
{
    uint64_t number = message;
    if (!program || !program->at || !numbers || !fragments) return FL_NULL;
    fl_answer answer = flounder_use(program->at, 13, &number, 1);
    if (answer.fault) return answer.fault;
    *numbers = answer.count + 1;
    *fragments = answer.what ? (answer.what + 55) / 56 : 1;
    return FL_OK;
}

/* Makes a send run of a program, which may be freed before it. */
static inline unsigned fl_send_run(fl_program *program, fl_sender *run)
{
    if (!run) return FL_NULL;
    run->at = 0;
    if (!program || !program->at) return FL_NULL;
    return flounder_make_run(program->at, 1, &run->at).fault;
}

/* The same, a receive run. */
static inline unsigned fl_receive_run(fl_program *program, fl_receiver *run)
{
    if (!run) return FL_NULL;
    run->at = 0;
    if (!program || !program->at) return FL_NULL;
    return flounder_make_run(program->at, 2, &run->at).fault;
}

/* Begins a call, given as to `fl_call`. FL_BUSY: fragments of another are to be taken first. */
static inline unsigned fl_start(fl_sender *run, uint64_t *call, size_t count)
{
    if (!run || !run->at || !call) return FL_NULL;
    return flounder_call(run->at, call, count).fault;
}

/* Writes the call's next fragment, on circuit 0 with epoch 0. `*sight` is FL_FRAGMENT, or FL_NOTHING behind the
 * last: then `fragment` is left as it is. */
static inline unsigned fl_next_fragment(fl_sender *run, uint64_t fragment[8], unsigned *sight)
{
    if (!sight) return FL_NULL;
    *sight = FL_NOTHING;
    if (!run || !run->at || !fragment) return FL_NULL;
    fl_answer answer = flounder_use(run->at, 14, fragment, 8);
    *sight = answer.what;
    return answer.fault;
}

/* Feeds a fragment, whatever its epoch and what it acknowledges. `*came` is FL_PART, or FL_CALL: a call is whole,
 * and is to be read before the next feed (else FL_UNREAD). Faults 60 to 63, 65, 66: it can't follow those before
 * it, and nothing has changed. */
static inline unsigned fl_feed(fl_receiver *run, uint64_t fragment[8], unsigned *came)
{
    if (!came) return FL_NULL;
    *came = 0;
    if (!run || !run->at || !fragment) return FL_NULL;
    fl_answer answer = flounder_use(run->at, 15, fragment, 8);
    *came = answer.what;
    return answer.fault;
}

/* As `fl_read`. */
static inline unsigned fl_read_fed(fl_receiver *run, uint64_t *call, size_t room, uint64_t *count)
{
    if (!run || !run->at || !call || !count) return FL_NULL;
    fl_answer answer = flounder_read(run->at, call, room);
    *count = answer.count;
    return answer.fault;
}

/* Frees a program; its runs stay. */
static inline void fl_free_program(fl_program *program)
{
    if (program) fl_free_at(&program->at);
}

static inline void fl_free_send_run(fl_sender *run)
{
    if (run) fl_free_at(&run->at);
}

static inline void fl_free_receive_run(fl_receiver *run)
{
    if (run) fl_free_at(&run->at);
}

/* ---- tapes that come, for headers that are made of interfaces */

struct fl_tape { const uint64_t *at; size_t left; int wrong; };

/* The next number; 0 where the tape has ended. */
static inline uint64_t fl_next(struct fl_tape *tape)
{
    if (!tape->left) return tape->wrong = 1, 0;
    tape->left--;
    return *tape->at++;
}

/* The next number as a count; 0 where it is over its bound. */
static inline uint32_t fl_next_count(struct fl_tape *tape, uint32_t most)
{
    uint64_t count = fl_next(tape);
    if (count > most) return tape->wrong = 1, 0;
    return (uint32_t)count;
}

#endif
