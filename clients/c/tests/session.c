/* The session without sockets: its bytes are those of docs/PROTOCOL.md's example, however they are cut; and under an event loop
 * over a socket that does not block. */
#include "../bpfmap_client.h"
#include "server.h"

enum { TEXT_BYTES = 4096, REQUESTS = 3000, KEYS = 100, WALK_EVERY = 500 };

static struct bpfmap_session session;
static struct bpfmap_reply reply;

#define CHECK_SESSION(wanted, call)                                                                                    \
    do {                                                                                                               \
        enum bpfmap_status came = (call);                                                                              \
        CHECK(came == (wanted), "%s: status %d, %s", #call, (int)came, bpfmap_session_explain(&session, came));        \
    } while (0)

/* ---- the example of docs/PROTOCOL.md */

struct exchange {
    const char *request, *response; /* in hex */
    enum bpfmap_status status;
    enum bpfmap_kind kind;
};

static const struct exchange exchanges[] = {
    {"0000000200 01", "000000028001", BPFMAP_OK, BPFMAP_WELCOME},
    {"00000019010040010001000100b7000000ffffffff9500000000000000", "00000009810000000000000000", BPFMAP_OK, BPFMAP_REGISTERED},
    {"00000039010040000800080008792000000000000079390000000000000f900000000000007b04000000000000b7000000080000009500000000000000",
     "00000009810000000000000001", BPFMAP_OK, BPFMAP_REGISTERED},
    {"0000000711016100027879", "0000000382ffff", BPFMAP_OK, BPFMAP_NOTHING},
    {"00000003100161", "000000058200027879", BPFMAP_OK, BPFMAP_VALUE},
    {"0000000612016100017a", "000000058200027879", BPFMAP_UNCHANGED, BPFMAP_VALUE},
    {"0000000a16016100027879000177", "000000028301", BPFMAP_OK, BPFMAP_DONE},
    {"00000003130161", "0000000482000177", BPFMAP_OK, BPFMAP_VALUE},
    {"0000000d11016200080100000000000000", "0000000382ffff", BPFMAP_OK, BPFMAP_NOTHING},
    {"000000151a0162000802000000000000000000000000000001", "0000000b8200080300000000000000", BPFMAP_OK, BPFMAP_VALUE},
    {"000000151a0163000805000000000000000000000000000001", "0000000b8200080500000000000000", BPFMAP_OK, BPFMAP_VALUE},
    {"00000015170162000000000000000100080400000000000000", "0000000b8200080700000000000000", BPFMAP_OK, BPFMAP_VALUE},
    {"0000000d1801630000000000000000ffff", "0000000b8200080500000000000000", BPFMAP_OK, BPFMAP_VALUE},
    {"0000000d1901640000000000000000ffff", "0000000382ffff", BPFMAP_ABSENT, BPFMAP_NOTHING},
    {"0000001b210000000000000001000801000000000000000000000000000001",
     "0000000d860162 0008 0800000000000000 0000000d860163 0008 0600000000000000 "
     "0000001987 0000000000000002 0000000000000002 0000000000000000",
     BPFMAP_END, BPFMAP_COUNTS},
    {"00000013220000000000000001" "00080a00000000000000", "0000001987000000000000000200000000000000020000000000000000", BPFMAP_OK,
     BPFMAP_COUNTS},
    {"0000000123", "0000001987000000000000000200000000000000000000000000000000", BPFMAP_OK, BPFMAP_COUNTS},
    {"0000000d1701610000000000000005ffff", "00000006854200000000", BPFMAP_REFUSED, BPFMAP_REFUSAL},
};

/* The bytes of a text in hex, with spaces or without. */
static struct bpfmap_span bytes_of(const char *hex, uint8_t *bytes)
{
    size_t length = 0;
    unsigned byte;
    for (; *hex; hex += *hex == ' ' ? 1 : 2)
        if (*hex != ' ' && sscanf(hex, "%2x", &byte) == 1)
            bytes[length++] = (uint8_t)byte;
    return bpfmap_bytes(bytes, length);
}

/* What the requests of the example are made of. */
static const uint8_t removal_code[] = {0xb7, 0, 0, 0, 0xff, 0xff, 0xff, 0xff, 0x95, 0, 0, 0, 0, 0, 0, 0};
static struct bpfmap_program removal, sum, fifth;

static struct bpfmap_request with_program(enum bpfmap_call call, const char *key, const struct bpfmap_program *program, int arg)
{
    static uint8_t args[20][8];
    struct bpfmap_request request = bpfmap_request_of(call);
    request.key = bpfmap_text(key);
    request.program = program;
    request.threshold = 1;
    if (arg > 0) {
        bpfmap_store64(args[arg], (uint64_t)arg);
        request.arg = request.value = bpfmap_bytes(args[arg], 8);
    }
    return request;
}

static struct bpfmap_request with_values(enum bpfmap_call call, const char *expected, const char *value)
{
    struct bpfmap_request request = with_program(call, "a", NULL, 0);
    request.expected = bpfmap_text(expected);
    request.value = bpfmap_text(value);
    return request;
}

/* The request of this place in the example. */
static struct bpfmap_request request_at(size_t at)
{
    switch (at) {
    case 1: return with_program(BPFMAP_REGISTER, "", &removal, 0);
    case 2: return with_program(BPFMAP_REGISTER, "", &sum, 0);
    case 3: return with_values(BPFMAP_PUT, "", "xy");
    case 4: return with_values(BPFMAP_GET, "", "");
    case 5: return with_values(BPFMAP_PUT_IF_ABSENT, "", "z");
    case 6: return with_values(BPFMAP_REPLACE_IF, "xy", "w");
    case 7: return with_values(BPFMAP_REMOVE, "", "");
    case 8: return with_program(BPFMAP_PUT, "b", NULL, 1);
    case 9: return with_program(BPFMAP_MERGE, "b", &sum, 2);
    case 10: return with_program(BPFMAP_MERGE, "c", &sum, 5);
    case 11: return with_program(BPFMAP_COMPUTE, "b", &sum, 4);
    case 12: return with_program(BPFMAP_COMPUTE_IF_ABSENT, "c", &removal, 0);
    case 13: return with_program(BPFMAP_COMPUTE_IF_PRESENT, "d", &removal, 0);
    case 14: return with_program(BPFMAP_FOR_EACH, "", &sum, 1);
    case 15: return with_program(BPFMAP_REPLACE_ALL, "", &sum, 10);
    case 16: return bpfmap_request_of(BPFMAP_COUNT);
    default: return with_program(BPFMAP_COMPUTE, "a", &fifth, 0);
    }
}

/* Feeds an answer, so many bytes at once, and takes it into the reply, which may be NULL. No reply comes before all of them are
 * there. */
static void feed_answer(const struct exchange *exchange, size_t step, struct bpfmap_reply *into)
{
    uint8_t bytes[TEXT_BYTES];
    struct bpfmap_span response = bytes_of(exchange->response, bytes);
    enum bpfmap_status status = BPFMAP_WAITING;
    size_t at = 0, items = 0;
    while (status == BPFMAP_WAITING) {
        size_t count = response.length - at < step ? response.length - at : step;
        CHECK(count > 0 && bpfmap_session_feed(&session, bytes + at, count) == count, "%s is not answered", exchange->request);
        at += count;
        while ((status = bpfmap_session_next(&session, into)) == BPFMAP_OK && session.waiting > 0)
            items++;
    }
    CHECK(status == exchange->status, "%s: status %d, %s", exchange->request, (int)status,
          bpfmap_session_explain(&session, status));
    CHECK(!into || into->kind == exchange->kind, "%s is answered by kind %d", exchange->request, (int)into->kind);
    CHECK(at == response.length, "%s is answered too early", exchange->request);
    CHECK(exchange->status != BPFMAP_END || items == 2, "a walk gave %zu items", items);
    CHECK_SESSION(BPFMAP_NOT_ASKED, bpfmap_session_next(&session, into));
}

static void example_is_spoken(size_t step, struct bpfmap_reply *into)
{
    removal = bpfmap_program_of(bpfmap_windows(64, 256, 256, 256), bpfmap_bytes(removal_code, sizeof removal_code));
    sum = sum_program();
    bpfmap_session_begin(&session, 1);
    fifth = bpfmap_session_numbered(&session, 5);
    for (size_t i = 0; i < sizeof exchanges / sizeof *exchanges; i++) {
        uint8_t bytes[TEXT_BYTES];
        struct bpfmap_request request = request_at(i);
        struct bpfmap_span wanted = bytes_of(exchanges[i].request, bytes), output;
        if (i > 0)
            CHECK_SESSION(BPFMAP_OK, bpfmap_session_ask(&session, &request));
        output = bpfmap_session_output(&session);
        CHECK(output.length == wanted.length && memcmp(output.bytes, wanted.bytes, wanted.length) == 0, "%s: other bytes",
              exchanges[i].request);
        for (size_t sent = 0; sent < wanted.length; sent += step)
            bpfmap_session_sent(&session, wanted.length - sent < step ? wanted.length - sent : step);
        CHECK(bpfmap_session_output(&session).length == 0, "there is more output");
        feed_answer(&exchanges[i], step, into);
    }
}

/* ---- ends, and bytes that nobody asked for */

static void greeted_session(void)
{
    bpfmap_session_begin(&session, 2);
    bpfmap_session_sent(&session, bpfmap_session_output(&session).length);
    CHECK(bpfmap_session_feed(&session, "\0\0\0\2\x80\2", 6) == 6, "no room");
    CHECK_SESSION(BPFMAP_OK, bpfmap_session_next(&session, &reply));
    CHECK(reply.kind == BPFMAP_WELCOME && reply.call == BPFMAP_HELLO, "no welcome");
}

static void unasked_bytes_end_the_session(void)
{
    struct bpfmap_request get = with_values(BPFMAP_GET, "", "");
    greeted_session();
    bpfmap_session_feed(&session, "\0\0\0\4\x82\0\1x", 8);
    CHECK_SESSION(BPFMAP_GARBLED, bpfmap_session_ask(&session, &get));
    CHECK_SESSION(BPFMAP_GARBLED, bpfmap_session_next(&session, &reply));
}

static void answers_before_an_end_are_given(void)
{
    struct bpfmap_request get = with_values(BPFMAP_GET, "", "");
    greeted_session();
    for (int i = 0; i < 3; i++)
        CHECK_SESSION(BPFMAP_OK, bpfmap_session_ask(&session, &get));
    bpfmap_session_feed(&session, "\0\0\0\4\x82\0\1x\0\0\0\3\x82", 13);
    CHECK_SESSION(BPFMAP_BROKEN, bpfmap_session_end(&session, BPFMAP_BROKEN, ECONNRESET));
    CHECK(bpfmap_session_output(&session).length == 0, "a session that ended has output");
    CHECK_SESSION(BPFMAP_OK, bpfmap_session_next(&session, &reply));
    CHECK(reply.value_length == 1 && reply.value[0] == 'x', "another value");
    CHECK_SESSION(BPFMAP_BROKEN, bpfmap_session_next(&session, &reply));
    CHECK(reply.kind == BPFMAP_NO_ANSWER && reply.value[0] == 0, "a reply has a value");
    CHECK_SESSION(BPFMAP_BROKEN, bpfmap_session_ask(&session, &get));
}

/* What does not fit is not taken, and can be asked for again. */
static void buffers_have_ends(void)
{
    static uint8_t code[BPFMAP_PROGRAM_BYTES];
    struct bpfmap_program long_one = bpfmap_program_of(bpfmap_windows(0, 0, 0, 0), bpfmap_bytes(code, sizeof code));
    struct bpfmap_request large = with_program(BPFMAP_REGISTER, "", &long_one, 0), get = with_values(BPFMAP_GET, "", "");
    size_t fed = 0;
    greeted_session();
    CHECK_SESSION(BPFMAP_OK, bpfmap_session_ask(&session, &large));
    CHECK_SESSION(BPFMAP_FULL, bpfmap_session_ask(&session, &large));
    bpfmap_session_sent(&session, 1);
    CHECK_SESSION(BPFMAP_FULL, bpfmap_session_ask(&session, &large));
    bpfmap_session_sent(&session, bpfmap_session_output(&session).length);
    CHECK_SESSION(BPFMAP_OK, bpfmap_session_ask(&session, &large));
    for (int i = 2; i < BPFMAP_DEPTH; i++) {
        bpfmap_session_sent(&session, bpfmap_session_output(&session).length);
        CHECK_SESSION(BPFMAP_OK, bpfmap_session_ask(&session, &get));
    }
    CHECK_SESSION(BPFMAP_UNREAD, bpfmap_session_ask(&session, &get));
    while (bpfmap_session_feed(&session, code, 1) == 1)
        fed++;
    CHECK(fed == BPFMAP_BUFFER_BYTES, "%zu bytes fit", fed);
    CHECK_SESSION(BPFMAP_GARBLED, bpfmap_session_next(&session, &reply));
}

/* ---- an event loop */

static unsigned asked, answered, items;

static struct bpfmap_request next_request(void)
{
    static char keys[KEYS][8];
    struct bpfmap_request request = bpfmap_request_of(BPFMAP_MERGE);
    char *key = keys[asked % KEYS];
    sprintf(key, "key %u", asked % KEYS);
    if (asked % WALK_EVERY == WALK_EVERY - 1)
        return with_program(BPFMAP_FOR_EACH, "", &sum, 1);
    request = with_program(BPFMAP_MERGE, key, &sum, 1);
    return request;
}

static void ask_all(void)
{
    enum bpfmap_status status = BPFMAP_OK;
    while (asked < REQUESTS && status == BPFMAP_OK) {
        struct bpfmap_request request = next_request();
        status = bpfmap_session_ask(&session, &request);
        asked += status == BPFMAP_OK;
    }
    CHECK(status == BPFMAP_OK || status == BPFMAP_FULL || status == BPFMAP_UNREAD, "status %d", (int)status);
}

/* Each key counts its merges: the answers come in the order of the requests. */
static void take(enum bpfmap_status status)
{
    unsigned walks = answered / WALK_EVERY, key = answered % KEYS;
    if (reply.kind == BPFMAP_ITEM) {
        items++;
        return;
    }
    if (answered % WALK_EVERY == WALK_EVERY - 1) {
        CHECK_SESSION(BPFMAP_END, status);
        CHECK(reply.given == items && items == KEYS, "a walk gave %u items", items);
        items = 0;
    } else {
        uint64_t wanted = answered / KEYS + 1 - (key == WALK_EVERY % KEYS + KEYS - 1 ? walks : 0);
        CHECK_SESSION(BPFMAP_OK, status);
        CHECK(bpfmap_load64(reply.value) == wanted, "answer %u is %llu, not %llu", answered,
              (unsigned long long)bpfmap_load64(reply.value), (unsigned long long)wanted);
    }
    answered++;
}

static void take_all(void)
{
    enum bpfmap_status status;
    while (bpfmap_is_answer(status = bpfmap_session_next(&session, &reply)))
        take(status);
    CHECK(status == BPFMAP_WAITING || status == BPFMAP_NOT_ASKED, "status %d, %s", (int)status,
          bpfmap_session_explain(&session, status));
}

static void send_and_receive(int opened)
{
    struct pollfd watched = {.fd = opened, .events = POLLIN};
    struct bpfmap_span output = bpfmap_session_output(&session);
    size_t length;
    ssize_t count;
    if (output.length > 0)
        watched.events |= POLLOUT;
    CHECK(poll(&watched, 1, TIMEOUT) == 1, "the server is silent");
    if (watched.revents & POLLOUT) {
        count = send(opened, output.bytes, output.length, MSG_NOSIGNAL);
        CHECK(count > 0, "send: %s", strerror(errno));
        bpfmap_session_sent(&session, (size_t)count);
    }
    if (watched.revents & POLLIN) {
        uint8_t *room = bpfmap_session_room(&session, &length);
        count = recv(opened, room, length, 0);
        CHECK(count > 0, "recv: %s", strerror(errno));
        bpfmap_session_received(&session, (size_t)count);
    }
}

static void event_loop_gets_all(void)
{
    struct bpfmap_client address = {.timeout = TIMEOUT};
    struct bpfmap_request registration = with_program(BPFMAP_REGISTER, "", &sum, 0);
    int error, opened;
    start_server();
    opened = bpfmap_find_host(&address, "127.0.0.1", server_port, &error);
    CHECK(opened >= 0 && fcntl(opened, F_SETFL, O_NONBLOCK) == 0, "no connection");
    bpfmap_session_begin(&session, BPFMAP_VERSION);
    CHECK_SESSION(BPFMAP_OK, bpfmap_session_ask(&session, &registration));
    while (session.waiting > 0) {
        send_and_receive(opened);
        while (bpfmap_session_next(&session, &reply) == BPFMAP_OK) {}
    }
    CHECK(reply.kind == BPFMAP_NO_ANSWER, "a reply stays");
    while (answered < REQUESTS) {
        ask_all();
        send_and_receive(opened);
        take_all();
    }
    close(opened);
    stop_server();
}

int main(void)
{
    size_t steps[] = {1, 2, 7, TEXT_BYTES};
    signal(SIGALRM, end_late_test);
    alarm(LONGEST_TEST_SECONDS);
    for (size_t i = 0; i < sizeof steps / sizeof *steps; i++)
        example_is_spoken(steps[i], &reply), example_is_spoken(steps[i], NULL);
    unasked_bytes_end_the_session();
    answers_before_an_end_are_given();
    buffers_have_ends();
    event_loop_gets_all();
    printf("client c: the session's bytes are those of the page, and an event loop got %u answers\n", answered);
    return 0;
}
