/* What becomes of requests where the connection fails, where answers are no answers, and where more is sent than fits anywhere. */
#include "../bpfmap_client.h"
#include "server.h"
#include "played.h"
#include <time.h>

enum { LITTLE_TIME = 500, MANY_ENTRIES = 300, MANY_WALKS = 30, MANY_PROGRAMS = 300 };

static struct bpfmap_client client;
static struct bpfmap_reply reply;

static int is_failure(enum bpfmap_status status)
{
    return status >= BPFMAP_CLOSED;
}

/* Connects to a server that plays this after the Hello. */
static void play(struct played *played, void (*part)(int, const void *), const void *given, int timeout)
{
    *played = (struct played){.play = part, .given = given, .greets = BPFMAP_VERSION};
    start_played(played);
    CHECK_STATUS(&client, BPFMAP_OK, bpfmap_connect(&client, "127.0.0.1", played->port, timeout));
}

/* ---- a server that ends */

static struct bpfmap_request sum_request(const struct bpfmap_program *program)
{
    static const uint8_t one[8] = {1};
    struct bpfmap_request request = {
        .call = BPFMAP_MERGE, .key = bpfmap_text("hits"), .value = bpfmap_bytes(one, sizeof one), .program = program};
    return request;
}

/* The server is killed while 1,000 requests are on their way: each gets its answer, or an error; none an answer behind an error. */
static void server_is_killed(int answered_first)
{
    struct bpfmap_program sum = sum_program();
    struct bpfmap_request request = sum_request(&sum);
    int answered = 0, failed = 0;
    start_server();
    connect_to_server(&client);
    for (int i = 0; i < 1000; i++)
        CHECK_STATUS(&client, BPFMAP_OK, bpfmap_send(&client, &request));
    for (int i = 0; i < 1000; i++) {
        enum bpfmap_status status = bpfmap_receive(&client, &reply);
        if (i == answered_first)
            stop_server();
        if (status != BPFMAP_OK) {
            CHECK(is_failure(status), "request %d of a killed server: %s", i, bpfmap_explain(&client, status));
            failed++;
            continue;
        }
        CHECK(failed == 0 && bpfmap_load64(reply.value) == (uint64_t)++answered, "request %d has no right answer", i);
    }
    CHECK(answered > answered_first, "only %d of the first requests were answered", answered);
    CHECK(is_failure(bpfmap_get(&client, bpfmap_text("hits"), &reply)), "a killed server answers");
    bpfmap_close(&client);
    stop_server();
}

/* Answers three requests of ten, sends the beginning of a fourth answer, and then ends, or resets the connection. */
static void answer_three(int connection, const void *given)
{
    static const uint8_t nothing[] = {0, 0, 0, 3, 0x82, 0xff, 0xff};
    struct linger at_once = {.l_onoff = 1};
    skip_bytes(connection, 10 * 8);
    for (int i = 0; i < 3; i++)
        send_bytes(connection, nothing, sizeof nothing);
    send_bytes(connection, nothing, sizeof nothing - 1);
    if (given) {
        struct timespec moment = {.tv_nsec = 100000000};
        nanosleep(&moment, NULL);
        setsockopt(connection, SOL_SOCKET, SO_LINGER, &at_once, sizeof at_once);
    }
}

static void server_ends_inside_an_answer(const void *resets)
{
    struct played played;
    struct bpfmap_request get = {.call = BPFMAP_GET, .key = bpfmap_text("ab")};
    play(&played, answer_three, resets, TIMEOUT);
    for (int i = 0; i < 10; i++)
        CHECK_STATUS(&client, BPFMAP_OK, bpfmap_send(&client, &get));
    for (int i = 0; i < 3; i++)
        CHECK_STATUS(&client, BPFMAP_ABSENT, bpfmap_receive(&client, &reply));
    for (int i = 3; i < 12; i++)
        CHECK_STATUS(&client, BPFMAP_BROKEN, bpfmap_receive(&client, &reply));
    CHECK(client.session.error == (resets ? ECONNRESET : 0), "the end has errno %d", client.session.error);
    CHECK_STATUS(&client, BPFMAP_BROKEN, bpfmap_ask(&client, &get, &reply));
    CHECK_STATUS(&client, BPFMAP_BROKEN, bpfmap_send(&client, &get));
    end_played(&played);
}

/* Answers three requests, reads no other, and ends. */
static void answer_and_stop_reading(int connection, const void *given)
{
    static const uint8_t nothing[] = {0, 0, 0, 3, 0x82, 0xff, 0xff};
    struct timespec while_client_sends = {.tv_sec = 1};
    (void)given;
    skip_bytes(connection, 3 * 8);
    for (int i = 0; i < 3; i++)
        send_bytes(connection, nothing, sizeof nothing);
    nanosleep(&while_client_sends, NULL);
}

/* The end is seen by a request that is sent. Answers that had come by then are received all the same. */
static void server_ends_while_client_sends(void)
{
    static const uint8_t code[BPFMAP_PROGRAM_BYTES];
    struct bpfmap_program program = bpfmap_program_of(bpfmap_windows(0, 0, 0, 0), bpfmap_bytes(code, sizeof code));
    struct bpfmap_request large = {.call = BPFMAP_REGISTER, .program = &program};
    struct bpfmap_request get = {.call = BPFMAP_GET, .key = bpfmap_text("ab")};
    struct played played;
    enum bpfmap_status status = BPFMAP_OK;
    play(&played, answer_and_stop_reading, NULL, TIMEOUT);
    for (int i = 0; i < 3; i++)
        CHECK_STATUS(&client, BPFMAP_OK, bpfmap_send(&client, &get));
    for (int i = 3; i < BPFMAP_DEPTH && status == BPFMAP_OK; i++)
        status = bpfmap_send(&client, &large);
    CHECK_STATUS(&client, BPFMAP_BROKEN, status);
    for (int i = 0; i < 3; i++)
        CHECK_STATUS(&client, BPFMAP_ABSENT, bpfmap_receive(&client, &reply));
    CHECK_STATUS(&client, BPFMAP_BROKEN, bpfmap_receive(&client, &reply));
    CHECK_STATUS(&client, BPFMAP_BROKEN, bpfmap_send(&client, &get));
    end_played(&played);
}

/* ---- a server that waits */

static long milliseconds(void)
{
    struct timespec now;
    clock_gettime(CLOCK_MONOTONIC, &now);
    return now.tv_sec * 1000 + now.tv_nsec / 1000000;
}

static void silent_server_is_left(void)
{
    struct played played;
    long begun;
    play(&played, be_silent, NULL, LITTLE_TIME);
    begun = milliseconds();
    CHECK_STATUS(&client, BPFMAP_TIMED_OUT, bpfmap_get(&client, bpfmap_text("ab"), &reply));
    CHECK(milliseconds() - begun >= LITTLE_TIME - 20, "the time was over after %ld ms", milliseconds() - begun);
    CHECK_STATUS(&client, BPFMAP_TIMED_OUT, bpfmap_get(&client, bpfmap_text("ab"), &reply));
    end_played(&played);
}

/* Reads nothing from the client, until this pipe tells that it has given up. */
static void take_nothing(int connection, const void *given)
{
    char told;
    (void)connection;
    CHECK(read(*(const int *)given, &told, 1) == 0, "a pipe tells a byte");
}

/* 32 megabytes do not fit into any buffer on the way. */
static void server_that_takes_nothing_is_left(void)
{
    static const uint8_t code[BPFMAP_PROGRAM_BYTES];
    struct bpfmap_program program = bpfmap_program_of(bpfmap_windows(0, 0, 0, 0), bpfmap_bytes(code, sizeof code));
    struct bpfmap_request large = {.call = BPFMAP_REGISTER, .program = &program};
    struct played played;
    enum bpfmap_status status = BPFMAP_OK;
    int given_up[2];
    CHECK(pipe(given_up) == 0, "no pipe");
    play(&played, take_nothing, &given_up[0], LITTLE_TIME);
    for (int i = 0; i < BPFMAP_DEPTH && status == BPFMAP_OK; i++)
        status = bpfmap_send(&client, &large);
    CHECK_STATUS(&client, BPFMAP_TIMED_OUT, status);
    close(given_up[1]);
    end_played(&played);
    close(given_up[0]);
}

/* ---- answers that are none */

struct frame {
    const char *name;
    enum bpfmap_call call; /* the request, on the key ab and the value x or the program 0 */
    size_t length;
    uint8_t bytes[40];
};

static const struct frame no_answers[] = {
    {"a length of 0", BPFMAP_GET, 4, {0, 0, 0, 0}},
    {"a length above the longest", BPFMAP_GET, 4, {0, 0, 4, 69}},
    {"the greatest length", BPFMAP_GET, 4, {255, 255, 255, 255}},
    {"an unknown tag", BPFMAP_GET, 5, {0, 0, 0, 1, 0x88}},
    {"the tag of a request", BPFMAP_GET, 8, {0, 0, 0, 4, 0x10, 2, 97, 98}},
    {"a value without a length", BPFMAP_GET, 6, {0, 0, 0, 2, 0x82, 0}},
    {"a value that is cut short", BPFMAP_GET, 8, {0, 0, 0, 4, 0x82, 0, 2, 97}},
    {"a byte behind a value", BPFMAP_GET, 9, {0, 0, 0, 5, 0x82, 0, 1, 97, 97}},
    {"a byte behind nothing", BPFMAP_GET, 8, {0, 0, 0, 4, 0x82, 255, 255, 0}},
    {"Done to a Get", BPFMAP_GET, 6, {0, 0, 0, 2, 0x83, 1}},
    {"Unfit to a Get", BPFMAP_GET, 6, {0, 0, 0, 2, 0x84, 1}},
    {"Hello to a Get", BPFMAP_GET, 6, {0, 0, 0, 2, 0x80, 1}},
    {"Registered to a Get", BPFMAP_GET, 13, {0, 0, 0, 9, 0x81}},
    {"an Item to a Get", BPFMAP_GET, 8, {0, 0, 0, 4, 0x86, 0, 0, 0}},
    {"End to a Get", BPFMAP_GET, 29, {0, 0, 0, 25, 0x87}},
    {"Value to a RemoveIf", BPFMAP_REMOVE_IF, 7, {0, 0, 0, 3, 0x82, 255, 255}},
    {"Done that is 2", BPFMAP_REMOVE_IF, 6, {0, 0, 0, 2, 0x83, 2}},
    {"Done that is cut short", BPFMAP_REMOVE_IF, 5, {0, 0, 0, 1, 0x83}},
    {"Unfit of no window", BPFMAP_MERGE, 6, {0, 0, 0, 2, 0x84, 0}},
    {"Unfit of a fourth window", BPFMAP_MERGE, 6, {0, 0, 0, 2, 0x84, 4}},
    {"Unfit that is cut short", BPFMAP_MERGE, 5, {0, 0, 0, 1, 0x84}},
    {"Refused without a place", BPFMAP_MERGE, 6, {0, 0, 0, 2, 0x85, 66}},
    {"Registered that is cut short", BPFMAP_REGISTER, 12, {0, 0, 0, 8, 0x81}},
    {"Value to a Count", BPFMAP_COUNT, 7, {0, 0, 0, 3, 0x82, 255, 255}},
    {"Value to a Register", BPFMAP_REGISTER, 7, {0, 0, 0, 3, 0x82, 255, 255}},
    {"an Item to a Count", BPFMAP_COUNT, 8, {0, 0, 0, 4, 0x86, 0, 0, 0}},
    {"End that is cut short", BPFMAP_COUNT, 28, {0, 0, 0, 24, 0x87}},
    {"an Item without a key", BPFMAP_FOR_EACH, 5, {0, 0, 0, 1, 0x86}},
    {"an Item's key that is too long", BPFMAP_FOR_EACH, 6, {0, 0, 0, 2, 0x86, 65}},
    {"an Item's key that is cut short", BPFMAP_FOR_EACH, 7, {0, 0, 0, 3, 0x86, 2, 97}},
    {"an Item without a value", BPFMAP_FOR_EACH, 6, {0, 0, 0, 2, 0x86, 0}},
    {"an Item of nothing", BPFMAP_FOR_EACH, 8, {0, 0, 0, 4, 0x86, 0, 255, 255}},
};

static void send_frame(int connection, const void *given)
{
    const struct frame *frame = (const struct frame *)given;
    send_bytes(connection, frame->bytes, frame->length);
    skip_bytes(connection, SIZE_MAX);
}

/* Sends the frame as the answer to a request. */
static void answer_with_frame(int connection, const void *given)
{
    skip_request(connection);
    send_frame(connection, given);
}

static void garbled_answer_ends_the_connection(const struct frame *frame)
{
    struct played played;
    struct bpfmap_program program = sum_program();
    struct bpfmap_request request = {.call = frame->call, .key = bpfmap_text("ab"), .program = &program};
    enum bpfmap_status status;
    play(&played, answer_with_frame, frame, TIMEOUT);
    if (frame->call != BPFMAP_REGISTER)
        program = bpfmap_numbered(&client, 0);
    status = bpfmap_ask(&client, &request, &reply);
    CHECK(status == BPFMAP_GARBLED, "%s: status %d, %s", frame->name, (int)status, bpfmap_explain(&client, status));
    CHECK(!client.is_open, "%s: the connection is open", frame->name);
    CHECK_STATUS(&client, BPFMAP_GARBLED, bpfmap_receive(&client, &reply));
    CHECK_STATUS(&client, BPFMAP_GARBLED, bpfmap_get(&client, bpfmap_text("ab"), &reply));
    end_played(&played);
}

/* ---- answers that are some */

/* Sends an Item and the counts, and then a refusal, byte by byte. */
static void answer_by_bytes(int connection, const void *given)
{
    static const uint8_t answers[] = {0, 0, 0, 6, 0x86, 1, 97, 0, 1, 122, 0, 0, 0, 25, 0x87, 0, 0, 0, 0, 0, 0, 0, 3,
                                      0, 0, 0, 0, 0, 0, 0, 2, 0, 0, 0, 0, 0, 0, 0, 1, 0, 0, 0, 6, 0x85, 9, 1, 2, 3, 4};
    struct timespec moment = {.tv_nsec = 1000000};
    int one = 1;
    (void)given;
    skip_request(connection);
    skip_request(connection);
    setsockopt(connection, IPPROTO_TCP, TCP_NODELAY, &one, sizeof one);
    for (size_t i = 0; i < sizeof answers; i++) {
        nanosleep(&moment, NULL);
        send_bytes(connection, answers + i, 1);
    }
    skip_bytes(connection, SIZE_MAX);
}

static void answer_may_come_by_bytes(void)
{
    struct played played;
    struct bpfmap_program zero;
    struct bpfmap_request walk = {.call = BPFMAP_FOR_EACH, .program = &zero};
    play(&played, answer_by_bytes, NULL, TIMEOUT);
    zero = bpfmap_numbered(&client, 0);
    CHECK_STATUS(&client, BPFMAP_OK, bpfmap_send(&client, &walk));
    CHECK_STATUS(&client, BPFMAP_OK, bpfmap_send(&client, &walk));
    CHECK_STATUS(&client, BPFMAP_OK, bpfmap_receive(&client, &reply));
    CHECK(reply.kind == BPFMAP_ITEM && reply.key_length == 1 && reply.key[0] == 'a' && reply.value_length == 1 &&
              reply.value[0] == 'z', "no Item came, but kind %d", (int)reply.kind);
    CHECK_STATUS(&client, BPFMAP_END, bpfmap_receive(&client, &reply));
    CHECK(reply.kind == BPFMAP_COUNTS && reply.scanned == 3 && reply.given == 2 && reply.unfit == 1, "no counts came");
    CHECK_STATUS(&client, BPFMAP_REFUSED, bpfmap_receive(&client, &reply));
    CHECK(reply.refusal.number == 9 && reply.refusal.place == 0x01020304, "no refusal came");
    CHECK(strcmp(bpfmap_explain(&client, BPFMAP_REFUSED), "refused 9 at 16909060: a request for memory was refused") == 0,
          "it is explained as '%s'", bpfmap_explain(&client, BPFMAP_REFUSED));
    CHECK_STATUS(&client, BPFMAP_NOT_ASKED, bpfmap_receive(&client, &reply));
    bpfmap_close(&client);
    end_played(&played);
    CHECK_STATUS(&client, BPFMAP_CLOSED, bpfmap_receive(&client, &reply));
    CHECK_STATUS(&client, BPFMAP_CLOSED, bpfmap_get(&client, bpfmap_text("ab"), &reply));
}

/* Answers the Hello of a version with what is no answer to it, or a refusal. */
static void hello_is_not_answered(int version, uint8_t tag, uint8_t number, enum bpfmap_status wanted)
{
    struct frame frame = {.length = tag == 0x85 ? 10 : 6, .bytes = {0, 0, 0, tag == 0x85 ? 6 : 2, tag, number}};
    struct played played = {.play = send_frame, .given = &frame};
    start_played(&played);
    CHECK_STATUS(&client, wanted, bpfmap_connect_version(&client, "127.0.0.1", played.port, TIMEOUT, version));
    CHECK(!client.is_open, "a client that is not connected has a socket");
    if (number == 64)
        CHECK(strstr(bpfmap_explain(&client, wanted), "refused 64 at 0: ") && strstr(bpfmap_explain(&client, wanted),
              version == 1 ? "does not know version 1" : "ask for version 1"), "64: %s", bpfmap_explain(&client, wanted));
    CHECK_STATUS(&client, wanted, bpfmap_get(&client, bpfmap_text("ab"), &reply));
    CHECK(!bpfmap_is_answer(bpfmap_receive(&client, &reply)), "a client that is not connected has an answer");
    bpfmap_close(&client);
    end_played(&played);
}

/* An answer that is too long for version 1, though not for version 2. */
static void long_answer_ends_version_1(const uint8_t *bytes)
{
    struct frame frame = {.length = 6};
    struct played played = {.play = answer_with_frame, .given = &frame, .greets = 1};
    memcpy(frame.bytes, bytes, frame.length);
    start_played(&played);
    CHECK_STATUS(&client, BPFMAP_OK, bpfmap_connect_version(&client, "127.0.0.1", played.port, TIMEOUT, 1));
    CHECK_STATUS(&client, BPFMAP_GARBLED, bpfmap_get(&client, bpfmap_text("ab"), &reply));
    end_played(&played);
}

/* ---- no server */

static void nobody_listens(void)
{
    struct sockaddr_in address = {.sin_family = AF_INET, .sin_addr = {htonl(INADDR_LOOPBACK)}};
    socklen_t size = sizeof address;
    char port[8];
    int bound = socket(AF_INET, SOCK_STREAM, 0);
    CHECK(bound >= 0 && bind(bound, (struct sockaddr *)&address, sizeof address) == 0 &&
              getsockname(bound, (struct sockaddr *)&address, &size) == 0, "no port");
    sprintf(port, "%u", (unsigned)ntohs(address.sin_port));
    CHECK_STATUS(&client, BPFMAP_BROKEN, bpfmap_connect(&client, "127.0.0.1", port, TIMEOUT));
    CHECK(client.session.error == ECONNREFUSED, "errno %d where nobody listens", client.session.error);
    CHECK_STATUS(&client, BPFMAP_BROKEN, bpfmap_get(&client, bpfmap_text("ab"), &reply));
    CHECK_STATUS(&client, BPFMAP_NO_ADDRESS, bpfmap_connect(&client, "127.0.0.1", "no such port", TIMEOUT));
    CHECK_STATUS(&client, BPFMAP_NO_ADDRESS, bpfmap_get(&client, bpfmap_text("ab"), &reply));
    close(bound);
}

/* ---- more than fits anywhere */

/* Sends a request, and receives answers where that is wanted first. How many it received. */
static int send_and_receive(const struct bpfmap_request *request, void (*take)(void))
{
    int received = 0;
    enum bpfmap_status status = bpfmap_send(&client, request);
    while (status == BPFMAP_UNREAD) {
        take();
        received++;
        status = bpfmap_send(&client, request);
    }
    CHECK_STATUS(&client, BPFMAP_OK, status);
    return received;
}

static int items, walks, refusals;

/* Takes the next answer: an Item or the counts of a walk over all entries, or behind all walks a program's refusal. */
static void take_answer(void)
{
    enum bpfmap_status status = bpfmap_receive(&client, &reply);
    if (walks == MANY_WALKS) {
        CHECK_STATUS(&client, BPFMAP_REFUSED, status);
        CHECK(reply.refusal.number == 11 && reply.call == BPFMAP_REGISTER, "refused %d", reply.refusal.number);
        refusals++;
        return;
    }
    CHECK_STATUS(&client, reply.kind == BPFMAP_ITEM ? BPFMAP_OK : BPFMAP_END, status);
    if (reply.kind == BPFMAP_ITEM) {
        CHECK(reply.value_length == BPFMAP_VALUE_BYTES, "an Item's value has %zu bytes", reply.value_length);
        items++;
        return;
    }
    CHECK(reply.scanned == MANY_ENTRIES && reply.given == MANY_ENTRIES && reply.unfit == 0, "a walk has other counts");
    walks++;
    CHECK(items == walks * MANY_ENTRIES, "a walk gave %d items", items);
}

/* Puts entries, and registers a program that answers the longest value. */
static struct bpfmap_program fill_and_register(void)
{
    static uint8_t code[8 * (BPFMAP_VALUE_BYTES / 8 + 2)];
    uint8_t value[BPFMAP_VALUE_BYTES] = {0};
    struct bpfmap_program program;
    for (uint64_t i = 0; i < MANY_ENTRIES; i++) {
        uint8_t key[8];
        bpfmap_store64(key, i);
        CHECK_STATUS(&client, BPFMAP_OK, bpfmap_put(&client, bpfmap_bytes(key, 8), bpfmap_bytes(value, sizeof value), &reply));
    }
    for (int i = 0; i < BPFMAP_VALUE_BYTES / 8; i++) { /* std [r4+8*i], 1 */
        uint8_t unit[8] = {0x7a, 4, (uint8_t)(8 * i), (uint8_t)(8 * i >> 8), 1};
        memcpy(code + 8 * i, unit, sizeof unit);
    }
    memcpy(code + BPFMAP_VALUE_BYTES, "\xb7\0\0\0\0\4\0\0\x95", 9); /* mov64 r0, 1024; exit */
    program = bpfmap_program_of(bpfmap_windows(64, BPFMAP_VALUE_BYTES, 0, BPFMAP_VALUE_BYTES), bpfmap_bytes(code, sizeof code));
    CHECK_STATUS(&client, BPFMAP_OK, bpfmap_register(&client, &program, &reply));
    return program;
}

/* Ten megabytes of answers are asked for and not received, and ten megabytes of requests follow: neither side waits for the
 * other for ever, and all answers come, in order. */
static void more_is_sent_than_fits(void)
{
    static const uint8_t code[BPFMAP_PROGRAM_BYTES - 1];
    struct bpfmap_program longest, refused = bpfmap_program_of(bpfmap_windows(0, 0, 0, 0), bpfmap_bytes(code, sizeof code));
    struct bpfmap_request walk = {.call = BPFMAP_FOR_EACH, .program = &longest};
    struct bpfmap_request large = {.call = BPFMAP_REGISTER, .program = &refused};
    int unread = 0;
    start_server();
    connect_to_server(&client);
    longest = fill_and_register();
    for (int i = 0; i < MANY_WALKS; i++)
        unread += send_and_receive(&walk, take_answer);
    for (int i = 0; i < MANY_PROGRAMS; i++)
        unread += send_and_receive(&large, take_answer);
    CHECK(unread > 0, "all of that fits somewhere");
    CHECK_STATUS(&client, walks < MANY_WALKS ? BPFMAP_WALKING : BPFMAP_UNREAD, bpfmap_count(&client, &reply));
    while (refusals < MANY_PROGRAMS)
        take_answer();
    CHECK(walks == MANY_WALKS, "%d walks came to their end", walks);
    CHECK_STATUS(&client, BPFMAP_NOT_ASKED, bpfmap_receive(&client, &reply));
    CHECK_STATUS(&client, BPFMAP_OK, bpfmap_count(&client, &reply));
    bpfmap_close(&client);
    stop_server();
}

/* As many requests as may wait are sent, and one more is not. */
static void so_many_requests_may_wait(void)
{
    struct bpfmap_request count = {.call = BPFMAP_COUNT};
    start_server();
    connect_to_server(&client);
    for (int i = 0; i < BPFMAP_DEPTH; i++)
        CHECK_STATUS(&client, BPFMAP_OK, bpfmap_send(&client, &count));
    CHECK_STATUS(&client, BPFMAP_UNREAD, bpfmap_send(&client, &count));
    CHECK_STATUS(&client, BPFMAP_OK, bpfmap_receive(&client, &reply));
    CHECK_STATUS(&client, BPFMAP_OK, bpfmap_send(&client, &count));
    for (int i = 0; i < BPFMAP_DEPTH; i++)
        CHECK_STATUS(&client, BPFMAP_OK, bpfmap_receive(&client, &reply));
    CHECK_STATUS(&client, BPFMAP_NOT_ASKED, bpfmap_receive(&client, &reply));
    bpfmap_close(&client);
    stop_server();
}

int main(void)
{
    static const int resets = 1;
    size_t count = sizeof no_answers / sizeof *no_answers;
    static const int moments[] = {0, 10, 400, 700};
    signal(SIGALRM, end_late_test);
    alarm(LONGEST_TEST_SECONDS);
    for (size_t i = 0; i < sizeof moments / sizeof *moments; i++)
        server_is_killed(moments[i]);
    server_ends_inside_an_answer(NULL);
    server_ends_inside_an_answer(&resets);
    server_ends_while_client_sends();
    silent_server_is_left();
    server_that_takes_nothing_is_left();
    for (size_t i = 0; i < count; i++)
        garbled_answer_ends_the_connection(&no_answers[i]);
    answer_may_come_by_bytes();
    hello_is_not_answered(2, 0x80, 1, BPFMAP_GARBLED);
    hello_is_not_answered(1, 0x80, 2, BPFMAP_GARBLED);
    hello_is_not_answered(2, 0x85, 64, BPFMAP_REFUSED);
    hello_is_not_answered(1, 0x85, 64, BPFMAP_REFUSED);
    long_answer_ends_version_1((const uint8_t[]){0, 0, 1, 69, 0x82, 1});
    long_answer_ends_version_1((const uint8_t[]){0, 0, 4, 68, 0x82, 4});
    nobody_listens();
    so_many_requests_may_wait();
    more_is_sent_than_fits();
    printf("client c: servers that end, wait or send no answers (%zu kinds), and pipelines that are too deep\n", count);
    return 0;
}
