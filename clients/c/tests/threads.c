/* Threads that share a client without a lock: each answer is that of its call, or the client is busy. */
#include "../bpfmap_client.h"
#include "server.h"
#include "played.h"
#include "secrets.h"

enum { CALLS = 400, THREADS = 8 };

static struct bpfmap_client client;

struct user {
    pthread_t thread;
    unsigned number, answered, refused;
};

/* Asks for its own name, until it has had enough answers. */
static void *share_client(void *given)
{
    struct user *user = (struct user *)given;
    struct bpfmap_span name = name_of(user->number);
    struct bpfmap_reply reply;
    while (user->answered < CALLS) {
        enum bpfmap_status status = bpfmap_get(&client, name, &reply);
        CHECK(status == BPFMAP_OK || status == BPFMAP_BUSY, "a thread gets status %d", (int)status);
        if (status == BPFMAP_OK)
            check_secret(user->number, &reply);
        else
            CHECK(reply.kind == BPFMAP_NO_ANSWER && reply.value[0] == 0, "a thread has an answer that it did not ask for");
        user->answered += status == BPFMAP_OK;
        user->refused += status == BPFMAP_BUSY;
    }
    return NULL;
}

static void threads_get_their_own(void)
{
    static struct user users[THREADS];
    unsigned refused = 0;
    for (unsigned i = 0; i < THREADS; i++) {
        users[i].number = i;
        CHECK(pthread_create(&users[i].thread, NULL, share_client, &users[i]) == 0, "no thread");
    }
    for (int i = 0; i < THREADS; i++) {
        pthread_join(users[i].thread, NULL);
        refused += users[i].refused;
    }
    printf("client c: %d threads shared a client: %d answers, each that of its call, and %u times busy\n", THREADS,
           THREADS * CALLS, refused);
}

static void *wait_for_silence(void *given)
{
    struct bpfmap_reply reply;
    bpfmap_get((struct bpfmap_client *)given, bpfmap_text("a"), &reply);
    return NULL;
}

/* A thread that is cancelled inside a call leaves a busy client. */
static void cancelled_thread_leaves_a_busy_client(void)
{
    static struct bpfmap_client silent;
    struct timespec moment = {.tv_nsec = 50000000};
    struct bpfmap_reply reply;
    struct played played = {.play = be_silent, .greets = BPFMAP_VERSION};
    pthread_t thread;
    start_played(&played);
    CHECK_STATUS(&silent, BPFMAP_OK, bpfmap_connect(&silent, "127.0.0.1", played.port, TIMEOUT));
    CHECK(pthread_create(&thread, NULL, wait_for_silence, &silent) == 0, "no thread");
    nanosleep(&moment, NULL);
    pthread_cancel(thread);
    pthread_join(thread, NULL);
    CHECK_STATUS(&silent, BPFMAP_BUSY, bpfmap_get(&silent, bpfmap_text("b"), &reply));
    CHECK_STATUS(&silent, BPFMAP_BUSY, bpfmap_receive(&silent, &reply));
    bpfmap_close(&silent);
    CHECK_STATUS(&silent, BPFMAP_CLOSED, bpfmap_get(&silent, bpfmap_text("b"), &reply));
    end_played(&played);
}

int main(void)
{
    start_server();
    connect_to_server(&client);
    put_secrets(&client);
    threads_get_their_own();
    cancelled_thread_leaves_a_busy_client();
    bpfmap_close(&client);
    return 0;
}
