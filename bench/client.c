/* Makes so many calls of one kind by the C client, for bench/client.sh to count its instructions: one after the other, or a hundred
   at once.
   client PORT get|put|put_unread|merge|pipeline CALLS */
#include "../clients/c/bpfmap_client.h"
#include <stdlib.h>

enum { DEPTH = 100 };

static const uint8_t sum_code[] = {0x79, 0x20, 0, 0, 0, 0, 0, 0, 0x79, 0x39, 0, 0, 0, 0, 0, 0, 0x0f, 0x90, 0, 0, 0, 0, 0, 0,
                                   0x7b, 0x04, 0, 0, 0, 0, 0, 0, 0xb7, 0x00, 0, 0, 8, 0, 0, 0, 0x95, 0x00, 0, 0, 0, 0, 0, 0};
static const uint8_t one[8] = {1};
static struct bpfmap_client client;
static struct bpfmap_reply reply;
static struct bpfmap_program sum;

static void need(enum bpfmap_status status)
{
    if (status == BPFMAP_OK)
        return;
    fprintf(stderr, "client: %s\n", bpfmap_explain(&client, status));
    exit(1);
}

static struct bpfmap_span key(void)
{
    return bpfmap_text("hits");
}

static void get(void)
{
    need(bpfmap_get(&client, key(), &reply));
}

static void put(void)
{
    need(bpfmap_put(&client, key(), bpfmap_bytes(one, sizeof one), &reply));
}

static void put_unread(void)
{
    need(bpfmap_put(&client, key(), bpfmap_bytes(one, sizeof one), NULL));
}

static void merge(void)
{
    need(bpfmap_merge(&client, key(), bpfmap_bytes(one, sizeof one), &sum, &reply));
}

static void get_in_pipeline(void)
{
    struct bpfmap_request request = bpfmap_request_of(BPFMAP_GET);
    request.key = key();
    for (int i = 0; i < DEPTH; i++)
        need(bpfmap_send(&client, &request));
    for (int i = 0; i < DEPTH; i++)
        need(bpfmap_receive(&client, &reply));
}

static const struct kind {
    const char *name;
    void (*call)(void);
    long calls; /* of one turn */
} kinds[] = {{"get", get, 1}, {"put", put, 1}, {"put_unread", put_unread, 1}, {"merge", merge, 1},
             {"pipeline", get_in_pipeline, DEPTH}};

int main(int words, char **word)
{
    long calls;
    const struct kind *kind = kinds, *end = kinds + sizeof kinds / sizeof *kinds;
    while (words == 4 && kind < end && strcmp(kind->name, word[2]) != 0)
        kind++;
    if (words != 4 || kind == end) {
        fprintf(stderr, "client PORT get|put|put_unread|merge|pipeline CALLS\n");
        return 2;
    }
    sum = bpfmap_program_of(bpfmap_windows(64, 8, 8, 8), bpfmap_bytes(sum_code, sizeof sum_code));
    need(bpfmap_connect(&client, "127.0.0.1", word[1], 60000));
    put();
    merge();
    calls = atol(word[3]);
    for (long i = 0; i < calls; i += kind->calls)
        kind->call();
    bpfmap_close(&client);
    return 0;
}
