/* Keeps sessions with the time of their last access: each access is one ComputeIfPresent, which makes no session anew.
 * session_store HOST PORT */
#include "bpfmap_client.h"
#include <stdio.h>
#include <stdlib.h>

/* examples/c/session_touch.c, as examples/c/build makes it of clang 14: the later one of two times is kept. */
static const uint8_t touch[] = {
    0x65, 0x07, 0x02, 0x00, 0xff, 0xff, 0xff, 0xff,
    0xb7, 0x00, 0x00, 0x00, 0xff, 0xff, 0xff, 0xff,
    0x95, 0x00, 0x00, 0x00, 0x00, 0x00, 0x00, 0x00,
    0x79, 0x31, 0x00, 0x00, 0x00, 0x00, 0x00, 0x00,
    0x79, 0x23, 0x08, 0x00, 0x00, 0x00, 0x00, 0x00,
    0x79, 0x22, 0x00, 0x00, 0x00, 0x00, 0x00, 0x00,
    0x7b, 0x24, 0x00, 0x00, 0x00, 0x00, 0x00, 0x00,
    0x2d, 0x31, 0x01, 0x00, 0x00, 0x00, 0x00, 0x00,
    0xbf, 0x31, 0x00, 0x00, 0x00, 0x00, 0x00, 0x00,
    0x7b, 0x14, 0x08, 0x00, 0x00, 0x00, 0x00, 0x00,
    0xb7, 0x00, 0x00, 0x00, 0x10, 0x00, 0x00, 0x00,
    0x95, 0x00, 0x00, 0x00, 0x00, 0x00, 0x00, 0x00,
};
enum { SESSION_BYTES = 16 };

static struct bpfmap_client client;

/* Ends the program unless the call has this status, or BPFMAP_OK. Whether it is BPFMAP_OK. */
static int need(enum bpfmap_status status, enum bpfmap_status allowed)
{
    if (status == BPFMAP_OK || status == allowed)
        return status == BPFMAP_OK;
    fprintf(stderr, "session_store: %s\n", bpfmap_explain(&client, status));
    exit(1);
}

/* A session is a user's number and the time of the last access, in seconds. */
static void begin(const char *name, uint64_t user, uint64_t now)
{
    uint8_t session[SESSION_BYTES];
    bpfmap_store64(session, user);
    bpfmap_store64(session + 8, now);
    need(bpfmap_put(&client, bpfmap_text(name), bpfmap_bytes(session, sizeof session), NULL), BPFMAP_OK);
}

static void access_at(const struct bpfmap_program *program, const char *name, uint64_t now)
{
    struct bpfmap_reply reply;
    uint8_t time[8];
    bpfmap_store64(time, now);
    printf("%s at %llu: ", name, (unsigned long long)now);
    if (need(bpfmap_compute_if_present(&client, bpfmap_text(name), program, bpfmap_bytes(time, sizeof time), &reply),
             BPFMAP_ABSENT))
        printf("user %llu, last access %llu\n", (unsigned long long)bpfmap_load64(reply.value),
               (unsigned long long)bpfmap_load64(reply.value + 8));
    else
        printf("no session\n");
}

/* Removes a session without an access since this time, unless there is one meanwhile. */
static void expire(const char *name, uint64_t since)
{
    struct bpfmap_reply session;
    int is_old = need(bpfmap_get(&client, bpfmap_text(name), &session), BPFMAP_ABSENT) &&
                 session.value_length == SESSION_BYTES && bpfmap_load64(session.value + 8) < since;
    int is_removed = is_old && need(bpfmap_remove_if(&client, bpfmap_text(name),
                                                     bpfmap_bytes(session.value, session.value_length), NULL),
                                    BPFMAP_UNCHANGED);
    printf("%s without access since %llu: %s\n", name, (unsigned long long)since, is_removed ? "removed" : "kept");
}

int main(int count, char **word)
{
    struct bpfmap_program program = bpfmap_program_of(bpfmap_windows(64, 16, 8, 16), bpfmap_bytes(touch, sizeof touch));
    if (count != 3) {
        fprintf(stderr, "session_store HOST PORT\n");
        return 2;
    }
    need(bpfmap_connect(&client, word[1], word[2], 5000), BPFMAP_OK);
    begin("c0ffee", 42, 100);
    begin("decade", 7, 101);
    access_at(&program, "c0ffee", 130);
    access_at(&program, "c0ffee", 120);
    access_at(&program, "facade", 130);
    expire("c0ffee", 110);
    expire("decade", 110);
    access_at(&program, "decade", 140);
    bpfmap_close(&client);
    return 0;
}
