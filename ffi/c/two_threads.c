/* An rpc between two threads over a ring: the client sends a number, the server answers its square. A side
 * that finds nothing to do sleeps at a doorbell of ours, since nothing of the library waits or wakes. */
#include <flounder.h>
#include <pthread.h>
#include <stdio.h>

enum { CALLS = 20000 };

struct bell { pthread_mutex_t lock; pthread_cond_t rung; int news; };
#define BELL { PTHREAD_MUTEX_INITIALIZER, PTHREAD_COND_INITIALIZER, 0 }

static struct bell at_client = BELL, at_server = BELL;

static void ring_bell(struct bell *bell)
{
    pthread_mutex_lock(&bell->lock);
    bell->news = 1;
    pthread_cond_signal(&bell->rung);
    pthread_mutex_unlock(&bell->lock);
}

/* Whoever sleeps looked at the ring before, and found nothing: a ring of the bell since then isn't lost. */
static void sleep_at(struct bell *bell)
{
    pthread_mutex_lock(&bell->lock);
    while (!bell->news) pthread_cond_wait(&bell->rung, &bell->lock);
    bell->news = 0;
    pthread_mutex_unlock(&bell->lock);
}

/* Puts, and wakes the other side. Each put of ours is one answer or one question, so there is always room. */
static unsigned send(fl_side *side, struct bell *theirs, uint64_t number)
{
    uint64_t fragment[8] = { number, 0, 0, 0, 0, 0, 0, 2 };
    unsigned fault = fl_put(side, fragment);
    ring_bell(theirs);
    return fault;
}

static uint64_t receive(fl_side *side, struct bell *ours)
{
    uint64_t fragment[8];
    unsigned sight;
    for (;;) {
        if (fl_take(side, fragment, &sight)) return 0;
        if (sight == FL_FRAGMENT) return fragment[0];
        if (sight == FL_NOTHING) sleep_at(ours);
    }
}

static void *serve(void *given)
{
    fl_side *side = given;
    for (int k = 0; k < CALLS; k++) {
        uint64_t number = receive(side, &at_server);
        if (send(side, &at_client, number * number)) return given;
    }
    return 0;
}

int main(void)
{
    fl_side client, server;
    if (fl_duo(16, &client, &server)) return 1;
    pthread_t thread;
    if (pthread_create(&thread, 0, serve, &server)) return 2;
    uint64_t sum = 0;
    for (uint64_t k = 0; k < CALLS; k++) {
        if (send(&client, &at_server, k)) return 3;
        sum += receive(&client, &at_client);
    }
    void *failed;
    pthread_join(thread, &failed);
    if (failed) return 4;
    printf("%d calls, sum of squares %llu\n", CALLS, (unsigned long long)sum);
    /* mistakes that can be told */
    uint64_t fragment[8] = { 0, 0, 0, 0, 0, 0, 0, 4 };
    unsigned sight;
    printf("no handle %u, a fragment that only acknowledges %u, size %u, room for seven %u, "
           "no such operation %u\n",
        fl_put(0, fragment), fl_put(&client, fragment), fl_duo(5, &(fl_side){ 0 }, &(fl_side){ 0 }),
        flounder_use(client.at, 2, fragment, 7).fault, flounder_use(client.at, 77, fragment, 8).fault);
    fl_free_side(&client);
    fl_free_side(&server);
    printf("ended: %u\n", fl_take(&client, fragment, &sight));
    return 0;
}
