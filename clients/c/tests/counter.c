/* Eight threads, a connection each, count on one key: first each call by itself, then many at once. The sum is exact. */
#include "../bpfmap_client.h"
#include "server.h"
#include <pthread.h>

enum { THREADS = 8, ALONE = 300, PIPELINED = 2000, DEPTH = 64 };

struct worker {
    pthread_t thread;
    struct bpfmap_client client;
    const struct bpfmap_program *program;
    uint64_t greatest;
};

static const uint8_t one[8] = {1};

static struct bpfmap_request merge_of(const struct bpfmap_program *program)
{
    struct bpfmap_request request = {
        .call = BPFMAP_MERGE, .key = bpfmap_text("hits"), .value = bpfmap_bytes(one, sizeof one), .program = program};
    return request;
}

/* Each counter that a worker sees is above the one before: it has seen its own count at least. */
static void take_count(struct worker *worker, const struct bpfmap_reply *reply)
{
    uint64_t count;
    CHECK(reply->kind == BPFMAP_VALUE && reply->value_length == 8, "a merge answered kind %d", (int)reply->kind);
    count = bpfmap_load64(reply->value);
    CHECK(count > worker->greatest, "the counter went from %llu to %llu", (unsigned long long)worker->greatest,
          (unsigned long long)count);
    worker->greatest = count;
}

static void count_alone(struct worker *worker)
{
    struct bpfmap_request request = merge_of(worker->program);
    struct bpfmap_reply reply;
    for (int i = 0; i < ALONE; i++) {
        CHECK_STATUS(&worker->client, BPFMAP_OK, bpfmap_ask(&worker->client, &request, &reply));
        take_count(worker, &reply);
    }
}

static void count_pipelined(struct worker *worker)
{
    struct bpfmap_request request = merge_of(worker->program);
    struct bpfmap_reply reply;
    for (int received = 0, sent = 0; received < PIPELINED; received++) {
        for (; sent < PIPELINED && sent - received < DEPTH; sent++)
            CHECK_STATUS(&worker->client, BPFMAP_OK, bpfmap_send(&worker->client, &request));
        CHECK_STATUS(&worker->client, BPFMAP_OK, bpfmap_receive(&worker->client, &reply));
        take_count(worker, &reply);
    }
}

static void *work(void *given)
{
    struct worker *worker = (struct worker *)given;
    connect_to_server(&worker->client);
    count_alone(worker);
    count_pipelined(worker);
    bpfmap_close(&worker->client);
    return NULL;
}

int main(void)
{
    static struct bpfmap_client client;
    static struct worker workers[THREADS];
    struct bpfmap_reply reply;
    struct bpfmap_program program = sum_program();
    uint64_t wanted = THREADS * (ALONE + PIPELINED);
    start_server();
    connect_to_server(&client);
    for (int i = 0; i < THREADS; i++) {
        workers[i].program = &program;
        CHECK(pthread_create(&workers[i].thread, NULL, work, &workers[i]) == 0, "no thread");
    }
    for (int i = 0; i < THREADS; i++)
        pthread_join(workers[i].thread, NULL);
    CHECK_STATUS(&client, BPFMAP_OK, bpfmap_get(&client, bpfmap_text("hits"), &reply));
    CHECK(reply.kind == BPFMAP_VALUE && bpfmap_load64(reply.value) == wanted, "the sum is not %llu",
          (unsigned long long)wanted);
    bpfmap_close(&client);
    printf("client c: %d threads on one counter: %llu, exact\n", THREADS, (unsigned long long)wanted);
    return 0;
}
