/* Programs are registered anew on each connection, and no number outlives its own; answers leave nothing behind in a reply; walks
 * can be left. */
#include "../bpfmap_client.h"
#include "server.h"
#include "played.h"

enum { MANY_PROGRAMS = BPFMAP_PROGRAMS + 20, ENTRIES = 3000 };

static struct bpfmap_client client, other;
static struct bpfmap_reply reply;
static const uint8_t one[8] = {1};

static struct bpfmap_span key(void)
{
    return bpfmap_text("hits");
}

static struct bpfmap_span value(void)
{
    return bpfmap_bytes(one, sizeof one);
}

/* A program that removes the key: mov64 r0, -1; exit. */
static struct bpfmap_program removal(void)
{
    static const uint8_t code[] = {0xb7, 0, 0, 0, 0xff, 0xff, 0xff, 0xff, 0x95, 0, 0, 0, 0, 0, 0, 0};
    return bpfmap_program_of(bpfmap_windows(64, 8, 8, 8), bpfmap_bytes(code, sizeof code));
}

static void check_count(const struct bpfmap_program *program, uint64_t wanted)
{
    CHECK_STATUS(&client, BPFMAP_OK, bpfmap_merge(&client, key(), value(), program, &reply));
    CHECK(bpfmap_load64(reply.value) == wanted, "the counter is %llu, not %llu", (unsigned long long)bpfmap_load64(reply.value),
          (unsigned long long)wanted);
}

/* ---- programs and connections */

/* The server is another one, and the number of the sum is a stranger's there, whose program removes the key. */
static void number_ends_with_its_connection(void)
{
    struct bpfmap_program sum = sum_program(), remove = removal(), kept;
    start_server();
    connect_to_server(&client);
    check_count(&sum, 1);
    CHECK_STATUS(&client, BPFMAP_OK, bpfmap_register(&client, &sum, &reply));
    kept = bpfmap_numbered(&client, reply.number);
    check_count(&kept, 2);
    bpfmap_close(&client);
    stop_server();

    start_server();
    connect_to_server(&other);
    for (int i = 0; i < 3; i++)
        CHECK_STATUS(&other, BPFMAP_OK, bpfmap_register(&other, &remove, &reply));
    connect_to_server(&client);
    check_count(&sum, 1);
    CHECK_STATUS(&client, BPFMAP_STALE, bpfmap_merge(&client, key(), value(), &kept, &reply));
    CHECK(reply.kind == BPFMAP_NO_ANSWER && bpfmap_session_output(&client.session).length == 0 && client.session.waiting == 0,
          "something was sent");
    CHECK(strstr(bpfmap_explain(&client, BPFMAP_STALE), "give the program's code instead"), "a stale number is not explained");
    check_count(&sum, 2);
    CHECK_STATUS(&client, BPFMAP_OK, bpfmap_reconnect(&client));
    CHECK_STATUS(&client, BPFMAP_STALE, bpfmap_compute(&client, key(), &kept, value(), &reply));
    check_count(&sum, 3);
    kept.session = other.session.id;
    CHECK_STATUS(&client, BPFMAP_STALE, bpfmap_begin_for_each(&client, &kept, value(), 1));
    CHECK_STATUS(&client, BPFMAP_STALE, bpfmap_replace_all(&client, &kept, value(), &reply));
    bpfmap_close(&other);
}

/* In a pipeline nothing is registered behind the caller's back. */
static void pipeline_wants_registered_programs(void)
{
    struct bpfmap_program sum = sum_program();
    struct bpfmap_request merge = bpfmap_request_of(BPFMAP_MERGE), get = bpfmap_request_of(BPFMAP_GET);
    merge.key = get.key = key();
    merge.value = value();
    merge.program = &sum;
    CHECK_STATUS(&client, BPFMAP_OK, bpfmap_reconnect(&client));
    CHECK_STATUS(&client, BPFMAP_OK, bpfmap_send(&client, &get));
    CHECK_STATUS(&client, BPFMAP_UNREGISTERED, bpfmap_send(&client, &merge));
    CHECK_STATUS(&client, BPFMAP_OK, bpfmap_receive(&client, &reply));
    for (int i = 0; i < 10; i++)
        CHECK_STATUS(&client, BPFMAP_OK, bpfmap_send(&client, &merge));
    for (uint64_t i = 0; i < 10; i++) {
        CHECK_STATUS(&client, BPFMAP_OK, bpfmap_receive(&client, &reply));
        CHECK(bpfmap_load64(reply.value) == 4 + i, "a merge in a pipeline counts wrong");
    }
    merge.program = NULL;
    CHECK_STATUS(&client, BPFMAP_UNREGISTERED, bpfmap_send(&client, &merge));
    CHECK_STATUS(&client, BPFMAP_UNREGISTERED, bpfmap_register(&client, NULL, &reply));
}

/* Each of these programs answers its own number: std [r4+0], N; mov64 r0, 8; exit. */
static void many_programs_are_told_apart(void)
{
    static uint8_t code[MANY_PROGRAMS][24];
    static struct bpfmap_program programs[MANY_PROGRAMS];
    for (int i = 0; i < MANY_PROGRAMS; i++) {
        static const uint8_t units[24] = {0x7a, 4, 0, 0, 0, 0, 0, 0, 0xb7, 0, 0, 0, 8, 0, 0, 0, 0x95};
        memcpy(code[i], units, sizeof units);
        code[i][4] = (uint8_t)i;
        programs[i] = bpfmap_program_of(bpfmap_windows(64, 8, 8, 8), bpfmap_bytes(code[i], sizeof units));
        if (i % 2)
            programs[i].mark = 0;
    }
    for (int i = 0; i < 3 * MANY_PROGRAMS; i++) {
        const struct bpfmap_program *program = &programs[i % MANY_PROGRAMS];
        CHECK_STATUS(&client, BPFMAP_OK, bpfmap_compute(&client, bpfmap_text("n"), program, bpfmap_none(), &reply));
        CHECK(bpfmap_load64(reply.value) == (uint64_t)(i % MANY_PROGRAMS), "program %d is taken for another", i);
    }
    programs[0].sizes.result = 16;
    programs[0].mark = 0;
    CHECK(bpfmap_mark(&programs[0]) != bpfmap_mark(&programs[1]) && bpfmap_mark(&programs[0]) != 0, "sizes make no difference");
}

/* More Registers in a pipeline than a client remembers: each is answered, and no number is taken for another program's. */
static void many_registers_may_wait(void)
{
    enum { COUNT = 3 * BPFMAP_PROGRAMS };
    struct bpfmap_program sum = sum_program(), remove = removal();
    struct bpfmap_request request = bpfmap_request_of(BPFMAP_REGISTER);
    CHECK_STATUS(&client, BPFMAP_OK, bpfmap_put(&client, bpfmap_text("n"), value(), NULL));
    for (int i = 0; i < COUNT; i++) {
        request.program = i < COUNT / 2 ? &remove : &sum;
        CHECK_STATUS(&client, BPFMAP_OK, bpfmap_send(&client, &request));
        if (i % 3 == 2)
            CHECK_STATUS(&client, BPFMAP_OK, bpfmap_receive(&client, &reply));
    }
    for (int i = COUNT / 3; i < COUNT; i++)
        CHECK_STATUS(&client, BPFMAP_OK, bpfmap_receive(&client, &reply));
    CHECK(client.session.registering == 0 && client.session.forgetting == 0, "a register waits");
    CHECK_STATUS(&client, BPFMAP_OK, bpfmap_merge(&client, bpfmap_text("n"), value(), &sum, &reply));
    CHECK(bpfmap_load64(reply.value) == 2, "another program was called");
    CHECK_STATUS(&client, BPFMAP_ABSENT, bpfmap_merge(&client, bpfmap_text("n"), value(), &remove, &reply));
}

/* The verifier's refusal comes to the call that uses the program first, with number and place. */
static void refused_program_is_explained(void)
{
    static const uint8_t code[] = {0xbf, 0x90, 0, 0, 0, 0, 0, 0, 0x95, 0, 0, 0, 0, 0, 0, 0}; /* mov64 r0, r9; exit */
    struct bpfmap_program program = bpfmap_program_of(bpfmap_windows(64, 8, 8, 8), bpfmap_bytes(code, sizeof code));
    struct bpfmap_program sum = sum_program();
    for (int i = 0; i < 2; i++) {
        CHECK_STATUS(&client, BPFMAP_REFUSED, bpfmap_merge(&client, key(), value(), &program, &reply));
        CHECK(reply.kind == BPFMAP_REFUSAL && reply.refusal.number == 40 && reply.refusal.place == 0, "refused %u at %u",
              reply.refusal.number, reply.refusal.place);
        CHECK(strcmp(bpfmap_explain(&client, BPFMAP_REFUSED),
                     "refused 40 at 0: write the register on every way that leads here") == 0,
              "it is explained as '%s'", bpfmap_explain(&client, BPFMAP_REFUSED));
    }
    check_count(&sum, 14);
}

/* ---- answers */

static int is_empty(const struct bpfmap_reply *tested)
{
    const uint8_t *byte = tested->value;
    while (byte < tested->value + sizeof tested->value && *byte == 0)
        byte++;
    return tested->value_length == 0 && byte == tested->value + sizeof tested->value;
}

static void check_empty(enum bpfmap_status wanted, enum bpfmap_status status)
{
    CHECK_STATUS(&client, wanted, status);
    CHECK(wanted != BPFMAP_OK && is_empty(&reply), "status %d left a value of %zu bytes", (int)status, reply.value_length);
}

static void get_secret(void)
{
    CHECK_STATUS(&client, BPFMAP_OK, bpfmap_get(&client, bpfmap_text("alice"), &reply));
    CHECK(reply.value_length == 20 && memcmp(reply.value, "the secret of alice.", 21) == 0, "alice's secret is another");
}

/* A value of a call before is in no reply that has none, and no such reply has status 0. */
static void no_answer_is_stale(void)
{
    struct bpfmap_program sum = sum_program(), remove = removal(), unknown = bpfmap_numbered(&client, 123456);
    struct bpfmap_span absent = bpfmap_text("absent"), alice = bpfmap_text("alice");
    static const uint8_t large[BPFMAP_VALUE_BYTES + 1];
    CHECK_STATUS(&client, BPFMAP_OK, bpfmap_put(&client, alice, bpfmap_text("the secret of alice."), &reply));
    CHECK(reply.kind == BPFMAP_NOTHING && is_empty(&reply), "a put of a new key answers a value");
    get_secret(), check_empty(BPFMAP_ABSENT, bpfmap_get(&client, absent, &reply));
    get_secret(), check_empty(BPFMAP_ABSENT, bpfmap_remove(&client, absent, &reply));
    get_secret(), check_empty(BPFMAP_ABSENT, bpfmap_replace(&client, absent, value(), &reply));
    get_secret(), check_empty(BPFMAP_UNCHANGED, bpfmap_remove_if(&client, alice, value(), &reply));
    get_secret(), check_empty(BPFMAP_UNCHANGED, bpfmap_replace_if(&client, absent, value(), value(), &reply));
    get_secret(), check_empty(BPFMAP_UNFIT, bpfmap_merge(&client, alice, value(), &sum, &reply));
    CHECK(reply.kind == BPFMAP_WINDOW && reply.window == BPFMAP_OLD_WINDOW, "window %d is too small", (int)reply.window);
    get_secret(), check_empty(BPFMAP_ABSENT, bpfmap_compute(&client, absent, &remove, bpfmap_none(), &reply));
    get_secret(), check_empty(BPFMAP_ABSENT, bpfmap_compute_if_present(&client, absent, &sum, value(), &reply));
    get_secret(), check_empty(BPFMAP_REFUSED, bpfmap_compute(&client, alice, &unknown, value(), &reply));
    CHECK(reply.refusal.number == 66 && strncmp(bpfmap_explain(&client, BPFMAP_REFUSED), "refused 66 at 0: ", 17) == 0, "66: %s",
          bpfmap_explain(&client, BPFMAP_REFUSED));
    get_secret(), check_empty(BPFMAP_REFUSED, bpfmap_put(&client, alice, bpfmap_bytes(large, sizeof large), &reply));
    get_secret(), check_empty(BPFMAP_NOT_ASKED, bpfmap_receive(&client, &reply));
    get_secret();
    CHECK_STATUS(&client, BPFMAP_UNCHANGED, bpfmap_put_if_absent(&client, alice, value(), &reply));
    CHECK(reply.value_length == 20, "put_if_absent does not answer the value that stays");
    bpfmap_close(&client);
    check_empty(BPFMAP_CLOSED, bpfmap_get(&client, alice, &reply));
    CHECK_STATUS(&client, BPFMAP_OK, bpfmap_reconnect(&client));
    CHECK_STATUS(&client, BPFMAP_OK, bpfmap_remove(&client, alice, &reply));
}

/* A client that is all zeros was never connected: it asks nobody, and closes nothing. */
static void client_of_zeros_is_closed(void)
{
    static struct bpfmap_client zeros;
    check_empty(BPFMAP_CLOSED, bpfmap_put(&zeros, key(), value(), &reply));
    memset(&zeros, 0, sizeof zeros);
    bpfmap_close(&zeros);
    CHECK(fcntl(0, F_GETFD) >= 0 || errno != EBADF, "standard input was closed");
}

/* ---- walks */

static void put_many(void)
{
    for (uint64_t i = 0; i < ENTRIES; i++) {
        uint8_t name[8];
        bpfmap_store64(name, i);
        CHECK_STATUS(&client, BPFMAP_OK, bpfmap_put(&client, bpfmap_bytes(name, 8), value(), NULL));
    }
}

static void receive_items(int count)
{
    for (int i = 0; i < count; i++) {
        CHECK_STATUS(&client, BPFMAP_OK, bpfmap_receive(&client, &reply));
        CHECK(reply.kind == BPFMAP_ITEM && bpfmap_load64(reply.value) > 1, "an item of kind %d", (int)reply.kind);
    }
}

static void walk_can_be_left(void)
{
    struct bpfmap_program sum = sum_program();
    CHECK_STATUS(&client, BPFMAP_OK, bpfmap_begin_for_each(&client, &sum, value(), 1));
    receive_items(10);
    check_empty(BPFMAP_WALKING, bpfmap_get(&client, key(), &reply));
    CHECK_STATUS(&client, BPFMAP_WALKING, bpfmap_begin_search(&client, &sum, value(), 1));
    CHECK(strstr(bpfmap_explain(&client, BPFMAP_WALKING), "another connection"), "a walk is not explained");
    receive_items(10);
    connect_to_server(&other);
    CHECK_STATUS(&other, BPFMAP_OK, bpfmap_get(&other, key(), &reply));
    bpfmap_close(&other);
    receive_items(10);
    CHECK_STATUS(&client, BPFMAP_CLOSED, bpfmap_leave_walk(&client));
    check_empty(BPFMAP_CLOSED, bpfmap_receive(&client, &reply));
    check_empty(BPFMAP_CLOSED, bpfmap_get(&client, key(), &reply));
    CHECK_STATUS(&client, BPFMAP_OK, bpfmap_reconnect(&client));
    CHECK_STATUS(&client, BPFMAP_OK, bpfmap_get(&client, key(), &reply));
}

static void walk_has_an_end(void)
{
    struct bpfmap_program sum = sum_program();
    CHECK_STATUS(&client, BPFMAP_OK, bpfmap_count(&client, &reply));
    CHECK_STATUS(&client, BPFMAP_OK, bpfmap_begin_for_each(&client, &sum, value(), 1));
    receive_items((int)reply.scanned);
    CHECK_STATUS(&client, BPFMAP_END, bpfmap_receive(&client, &reply));
    CHECK(reply.kind == BPFMAP_COUNTS && reply.given == reply.scanned, "a walk has other counts");
    CHECK_STATUS(&client, BPFMAP_NOT_ASKED, bpfmap_receive(&client, &reply));
    CHECK_STATUS(&client, BPFMAP_OK, bpfmap_leave_walk(&client));
    CHECK_STATUS(&client, BPFMAP_OK, bpfmap_begin_search(&client, &sum, value(), 1));
    receive_items(1);
    CHECK_STATUS(&client, BPFMAP_END, bpfmap_receive(&client, &reply));
    CHECK_STATUS(&client, BPFMAP_OK, bpfmap_get(&client, key(), &reply));
}

/* Sends an Item, and the next one only when the client tells that it has the first. */
static void send_items_one_by_one(int connection, const void *given)
{
    static const uint8_t item[] = {0, 0, 0, 6, 0x86, 1, 97, 0, 1, 122};
    char told;
    skip_bytes(connection, 23);
    send_bytes(connection, item, sizeof item);
    CHECK(read(*(const int *)given, &told, 1) == 1, "nobody told of an item");
    send_bytes(connection, item, sizeof item);
}

static void items_are_given_as_they_come(void)
{
    struct bpfmap_program zero;
    struct played played = {.play = send_items_one_by_one, .greets = BPFMAP_VERSION};
    int told[2];
    CHECK(pipe(told) == 0, "no pipe");
    played.given = &told[0];
    start_played(&played);
    CHECK_STATUS(&other, BPFMAP_OK, bpfmap_connect(&other, "127.0.0.1", played.port, TIMEOUT));
    zero = bpfmap_numbered(&other, 0);
    CHECK_STATUS(&other, BPFMAP_OK, bpfmap_begin_for_each(&other, &zero, bpfmap_none(), 1));
    CHECK_STATUS(&other, BPFMAP_OK, bpfmap_receive(&other, &reply));
    CHECK(write(told[1], "", 1) == 1, "a pipe is broken");
    CHECK_STATUS(&other, BPFMAP_OK, bpfmap_receive(&other, &reply));
    CHECK_STATUS(&other, BPFMAP_BROKEN, bpfmap_receive(&other, &reply));
    CHECK(strcmp(bpfmap_explain(&other, BPFMAP_BROKEN), "the server ended the connection; calls without an answer may have been "
                                                        "made; connect again") == 0,
          "%s", bpfmap_explain(&other, BPFMAP_BROKEN));
    end_played(&played);
    close(told[0]);
    close(told[1]);
}

int main(void)
{
    number_ends_with_its_connection();
    pipeline_wants_registered_programs();
    refused_program_is_explained();
    many_programs_are_told_apart();
    CHECK_STATUS(&client, BPFMAP_OK, bpfmap_remove(&client, bpfmap_text("n"), NULL));
    many_registers_may_wait();
    no_answer_is_stale();
    client_of_zeros_is_closed();
    items_are_given_as_they_come();
    put_many();
    walk_can_be_left();
    walk_has_an_end();
    bpfmap_close(&client);
    printf("client c: programs on each connection, %d on one; no stale answers; walks that are left\n", MANY_PROGRAMS);
    return 0;
}
