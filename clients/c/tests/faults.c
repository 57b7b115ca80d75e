/* A fault at every point of a call: send, recv, poll and connect fail, take or give a single byte, or are left by longjmp, each at
 * its first, second, third .. use. The server is a fake in this process, whose answers name what was asked. No call ever gets the
 * answer of another, no request arrives twice, and after a failure the connection is closed. */
#define _POSIX_C_SOURCE 200809L
#include <netdb.h>
#include <netinet/tcp.h>
#include <poll.h>
#include <setjmp.h>
#include <sys/socket.h>
#include <sys/types.h>

static ssize_t faulty_send(int socket, const void *bytes, size_t length, int flags);
static ssize_t faulty_recv(int socket, void *bytes, size_t length, int flags);
static int faulty_poll(struct pollfd *watched, nfds_t count, int timeout);
static int faulty_connect(int socket, const struct sockaddr *address, socklen_t length);
static int faulty_shutdown(int socket, int how);

#define send faulty_send
#define recv faulty_recv
#define poll faulty_poll
#define connect faulty_connect
#define shutdown faulty_shutdown
#include "../bpfmap_client.h"
#undef send
#undef recv
#undef poll
#undef connect
#undef shutdown
#include "server.h"

enum { LINE_BYTES = 65536, FIRST_NUMBER = 1000 };

/* ---- the server: its one connection, and what it has to answer */

static struct {
    uint8_t asked[LINE_BYTES], answers[LINE_BYTES];
    size_t asked_length, answers_begin, answers_end;
    uint64_t first_number, programs; /* of this connection: no two connections have a number in common */
    int has_ended;
} line;

static uint64_t connections;
static int merges; /* that arrived */

static void answer(uint8_t tag, const void *body, size_t length)
{
    uint8_t *to = line.answers + line.answers_end;
    bpfmap_write32(to, length + 1);
    to[4] = tag;
    memcpy(to + 5, body, length);
    line.answers_end += 5 + length;
}

/* Answers a text and a key as a value; as an Item, if the key is told. */
static void answer_text(const char *item, const char *text, const uint8_t *key, size_t length)
{
    uint8_t body[300], *to = body;
    if (item)
        to = bpfmap_write_bytes(to, bpfmap_bytes(item, 2));
    to = bpfmap_write16(to, strlen(text) + length);
    to = bpfmap_write_bytes(bpfmap_write_bytes(to, bpfmap_text(text)), bpfmap_bytes(key, length));
    answer(item ? 0x86 : 0x82, body, (size_t)(to - body));
}

static void answer_number(uint8_t tag, uint64_t number)
{
    uint8_t body[24] = {0};
    bpfmap_write64(body, number);
    answer(tag, body, tag == 0x87 ? 24 : 8);
}

static void check_number(const uint8_t *from)
{
    uint64_t number = bpfmap_read64(from);
    CHECK(number >= line.first_number && number < line.first_number + line.programs, "program %llu is none of this connection",
          (unsigned long long)number);
}

static void serve(const uint8_t *body, size_t size)
{
    switch (body[0]) {
    case BPFMAP_HELLO: answer(0x80, body + 1, 1); break;
    case BPFMAP_REGISTER: answer_number(0x81, line.first_number + line.programs++); break;
    case BPFMAP_GET: answer_text(NULL, "secret of ", body + 2, body[1]); break;
    case BPFMAP_MERGE:
        check_number(body + size - 8);
        merges++;
        answer_text(NULL, "merged ", body + 2, body[1]);
        break;
    case BPFMAP_FOR_EACH:
        check_number(body + 1);
        answer_text("\1a", "item a", NULL, 0);
        answer_text("\1b", "item b", NULL, 0);
        answer_text("\1c", "item c", NULL, 0);
        answer_number(0x87, 3);
        break;
    default: CHECK(0, "the fake got a request of tag %d", body[0]);
    }
}

/* Takes bytes of requests, and answers those that are whole. */
static void take_bytes(const void *bytes, size_t length)
{
    size_t at = 0;
    memcpy(line.asked + line.asked_length, bytes, length);
    line.asked_length += length;
    while (line.asked_length - at >= 4 && line.asked_length - at - 4 >= bpfmap_read32(line.asked + at)) {
        size_t size = bpfmap_read32(line.asked + at);
        serve(line.asked + at + 4, size);
        at += 4 + size;
    }
    memmove(line.asked, line.asked + at, line.asked_length - at);
    line.asked_length -= at;
}

static size_t give_bytes(void *bytes, size_t length)
{
    size_t there = line.answers_end - line.answers_begin;
    if (length > there)
        length = there;
    memcpy(bytes, line.answers + line.answers_begin, length);
    line.answers_begin += length;
    return length;
}

/* ---- the faults */

enum fault { SHORT, ALL_SHORT, INTERRUPTED, AGAIN, RESET, ENDED, JUMP_BEFORE, JUMP_AFTER, NO_MORE_FAULTS };

static const char *const fault_names[] = {"one byte", "one byte each time", "EINTR", "EAGAIN", "ECONNRESET", "an end",
                                          "longjmp before", "longjmp after"};
static enum fault fault;
static int fault_at, calls;
static jmp_buf jump;

/* Counts a call of the system. Whether the fault is in it. */
static int is_faulty(void)
{
    calls++;
    if (calls == fault_at && fault == JUMP_BEFORE)
        longjmp(jump, 1);
    return calls == fault_at || (fault == ALL_SHORT && fault_at > 0 && calls >= fault_at);
}

static void jump_after(int is_now)
{
    if (is_now && fault == JUMP_AFTER)
        longjmp(jump, 1);
}

static ssize_t failure(int error)
{
    errno = error;
    return -1;
}

static ssize_t faulty_send(int socket, const void *bytes, size_t length, int flags)
{
    int is_now = is_faulty();
    CHECK(socket >= 0 && flags == (MSG_DONTWAIT | MSG_NOSIGNAL) && length > 0, "a send of its own kind");
    if (is_now && fault == INTERRUPTED)
        return failure(EINTR);
    if (is_now && fault == AGAIN)
        return failure(EAGAIN);
    if (is_now && fault == RESET)
        return failure(ECONNRESET);
    if (line.has_ended || (is_now && fault == ENDED))
        return failure(EPIPE);
    if (is_now && (fault == SHORT || fault == ALL_SHORT))
        length = 1;
    take_bytes(bytes, length);
    jump_after(is_now);
    return (ssize_t)length;
}

static ssize_t faulty_recv(int socket, void *bytes, size_t length, int flags)
{
    int is_now = is_faulty();
    size_t count;
    CHECK(socket >= 0 && flags == 0 && length > 0, "a recv of its own kind");
    if (is_now && fault == INTERRUPTED)
        return failure(EINTR);
    if (is_now && fault == AGAIN)
        return failure(EAGAIN);
    if (is_now && fault == RESET)
        return failure(ECONNRESET);
    if (is_now && fault == ENDED)
        return 0;
    count = give_bytes(bytes, is_now && (fault == SHORT || fault == ALL_SHORT) ? 1 : length);
    CHECK(count > 0 || line.has_ended, "the client waits for an answer that it did not ask for");
    jump_after(is_now);
    return (ssize_t)count;
}

static int faulty_poll(struct pollfd *watched, nfds_t count, int timeout)
{
    int is_now = is_faulty();
    CHECK(count == 1 && timeout != 0, "a poll of its own kind");
    if (is_now && fault == INTERRUPTED)
        return (int)failure(EINTR);
    if (is_now && fault == AGAIN)
        return 0;
    watched->revents = (short)(watched->events & (POLLOUT | (line.answers_begin < line.answers_end ? POLLIN : 0)));
    jump_after(is_now);
    return watched->revents != 0;
}

static int faulty_connect(int socket, const struct sockaddr *address, socklen_t length)
{
    int is_now = is_faulty();
    CHECK(socket >= 0 && address && length > 0, "a connect of its own kind");
    if (is_now && fault == RESET)
        return (int)failure(ECONNREFUSED);
    line.asked_length = line.answers_begin = line.answers_end = 0;
    line.first_number = FIRST_NUMBER * ++connections;
    line.programs = 0;
    line.has_ended = 0;
    jump_after(is_now);
    if (is_now && fault == INTERRUPTED)
        return (int)failure(EINTR);
    return 0;
}

static int faulty_shutdown(int socket, int how)
{
    CHECK(socket >= 0 && how == SHUT_WR, "a shutdown of its own kind");
    line.has_ended = 1;
    return 0;
}

/* ---- the calls, and what belongs to each */

static struct bpfmap_client client;
static struct bpfmap_reply reply;
static struct bpfmap_program sum;
static uint64_t checked;

/* Whether the reply's value is this text and this name. */
static void check_value(const char *text, const char *name)
{
    char wanted[100];
    sprintf(wanted, "%s%s", text, name);
    CHECK(reply.kind == BPFMAP_VALUE || reply.kind == BPFMAP_ITEM, "kind %d came for %s", (int)reply.kind, wanted);
    CHECK(reply.value_length == strlen(wanted) && strcmp((char *)reply.value, wanted) == 0,
          "%s at %d: '%.*s' came for '%s'", fault_names[fault], fault_at, (int)reply.value_length, (char *)reply.value, wanted);
    checked++;
}

/* What may come in place of an answer. */
static enum bpfmap_status check_failure(enum bpfmap_status status)
{
    CHECK(status != BPFMAP_OK && fault >= AGAIN, "%s at %d: status %d, %s", fault_names[fault], fault_at, (int)status,
          bpfmap_explain(&client, status));
    CHECK(status == BPFMAP_BROKEN || status == BPFMAP_TIMED_OUT, "status %d, %s", (int)status, bpfmap_explain(&client, status));
    return status;
}

static enum bpfmap_status get(const char *name)
{
    enum bpfmap_status status = bpfmap_get(&client, bpfmap_text(name), &reply);
    if (status != BPFMAP_OK)
        CHECK(reply.kind == BPFMAP_NO_ANSWER && reply.value[0] == 0, "a call that failed has a reply");
    if (status != BPFMAP_OK)
        return check_failure(status);
    check_value("secret of ", name);
    return BPFMAP_OK;
}

static enum bpfmap_status merge(const char *name)
{
    static const uint8_t one[8] = {1};
    enum bpfmap_status status = bpfmap_merge(&client, bpfmap_text(name), bpfmap_bytes(one, 8), &sum, &reply);
    if (status != BPFMAP_OK)
        return check_failure(status);
    check_value("merged ", name);
    return BPFMAP_OK;
}

static enum bpfmap_status connect_again(void)
{
    enum bpfmap_status status = bpfmap_reconnect(&client);
    return status == BPFMAP_OK ? status : check_failure(status);
}

static enum bpfmap_status call_alone(void)
{
    enum bpfmap_status status = get("alice");
    if (status == BPFMAP_OK)
        status = get("bob");
    return status == BPFMAP_OK ? get("carol") : status;
}

/* The first answers may come; the first that does not is the first of all that fail. */
static enum bpfmap_status call_in_pipeline(void)
{
    static const char *const names[] = {"alice", "bob", "carol", "dave", "erin"};
    struct bpfmap_request request = {.call = BPFMAP_GET};
    enum bpfmap_status status = BPFMAP_OK;
    for (size_t i = 0; i < sizeof names / sizeof *names && status == BPFMAP_OK; i++) {
        request.key = bpfmap_text(names[i]);
        status = bpfmap_send(&client, &request);
    }
    for (size_t i = 0; i < sizeof names / sizeof *names && status == BPFMAP_OK; i++) {
        status = bpfmap_receive(&client, &reply);
        if (status == BPFMAP_OK)
            check_value("secret of ", names[i]);
    }
    return status == BPFMAP_OK ? get("frank") : check_failure(status);
}

static enum bpfmap_status call_program(void)
{
    enum bpfmap_status status = merge("alice");
    if (status == BPFMAP_OK)
        status = merge("bob");
    return status == BPFMAP_OK ? get("carol") : status;
}

static enum bpfmap_status call_walk(void)
{
    static const char *const names[] = {"a", "b", "c"};
    enum bpfmap_status status = bpfmap_begin_for_each(&client, &sum, bpfmap_none(), 1);
    int items = 0;
    while (status == BPFMAP_OK && (status = bpfmap_receive(&client, &reply)) == BPFMAP_OK)
        check_value("item ", names[items++]);
    if (status != BPFMAP_END)
        return check_failure(status);
    CHECK(items == 3 && reply.scanned == 3, "a walk ended after %d items", items);
    return get("dave");
}

/* ---- each fault at each point */

typedef enum bpfmap_status scenario(void);

/* Makes the calls, and sets whether one was left. Their status. */
static enum bpfmap_status make_calls(scenario *calls_of, int *was_left)
{
    *was_left = setjmp(jump) != 0;
    return *was_left ? BPFMAP_BUSY : calls_of();
}

/* After the calls the client is as it was; or closed; or busy, since a call was left. */
static void check_client(enum bpfmap_status status, int was_left)
{
    if (status == BPFMAP_OK) {
        CHECK_STATUS(&client, BPFMAP_OK, get("eve"));
        return;
    }
    CHECK(was_left || !client.is_open, "%s: the connection is open after a failure", fault_names[fault]);
    CHECK_STATUS(&client, status, bpfmap_get(&client, bpfmap_text("eve"), &reply));
    CHECK(reply.kind == BPFMAP_NO_ANSWER && reply.value[0] == 0, "%s: a client that failed answers", fault_names[fault]);
    CHECK_STATUS(&client, status, bpfmap_receive(&client, &reply));
}

/* Runs the calls with a fault at this point, and goes on after it. Whether they reached the point. */
static int run(scenario *calls_of, int at)
{
    int was_left, was_reached;
    enum bpfmap_status status;
    fault_at = 0;
    CHECK_STATUS(&client, BPFMAP_OK, bpfmap_connect(&client, "127.0.0.1", "1", TIMEOUT));
    calls = 0;
    fault_at = at;
    status = make_calls(calls_of, &was_left);
    was_reached = calls >= at;
    fault_at = 0;
    check_client(status, was_left);
    CHECK_STATUS(&client, BPFMAP_OK, bpfmap_reconnect(&client));
    CHECK_STATUS(&client, BPFMAP_OK, get("grace"));
    merges = 0;
    CHECK_STATUS(&client, BPFMAP_OK, merge("heidi"));
    CHECK(merges == 1, "a merge arrived %d times", merges);
    bpfmap_close(&client);
    return was_reached;
}

/* Runs the calls with each fault at each point that they reach. How many points there are. */
static int run_all(scenario *calls_of)
{
    int points = 0;
    for (fault = SHORT; fault != NO_MORE_FAULTS; fault = (enum fault)(fault + 1)) {
        int at = 1;
        while (run(calls_of, at))
            at++;
        CHECK(at > 2, "%s was in no call", fault_names[fault]);
        points += at - 1;
    }
    return points;
}

int main(void)
{
    int points = 0;
    signal(SIGALRM, end_late_test);
    alarm(LONGEST_TEST_SECONDS);
    sum = sum_program();
    points += run_all(connect_again);
    points += run_all(call_alone);
    points += run_all(call_in_pipeline);
    points += run_all(call_program);
    points += run_all(call_walk);
    printf("client c: a fault at each of %d points of calls; %llu answers, each that of its call\n", points,
           (unsigned long long)checked);
    return 0;
}
