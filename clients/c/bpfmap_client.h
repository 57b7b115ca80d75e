/* A client of `mapd` in C99 and C++11, over POSIX sockets (and MSG_DONTWAIT, which Linux, the BSDs and macOS have). README.md
 * beside it says how to begin. This is not examples/c/bpfmap.h, which is for programs that run in the map.
 *
 *     static struct bpfmap_client client;
 *     struct bpfmap_reply reply;
 *     enum bpfmap_status status = bpfmap_connect(&client, "127.0.0.1", "7070", 5000);
 *     if (status == BPFMAP_OK)
 *         status = bpfmap_get(&client, bpfmap_text("hits"), &reply);
 *     if (status == BPFMAP_OK)
 *         use(reply.value, reply.value_length);
 *     else if (status != BPFMAP_ABSENT)
 *         fprintf(stderr, "%s\n", bpfmap_explain(&client, status));
 *     bpfmap_close(&client);
 *
 * Include it before any other header, or define _POSIX_C_SOURCE as 200809L yourself. A client has fixed buffers, 56 KB in all, and
 * allocates nothing after bpfmap_connect.
 *
 * - If a connection fails, each request that waits for its answer gets an error, and so do all later ones. Such a call may have
 *   been made or not; nothing makes it again. bpfmap_reconnect begins anew.
 * - One thread at a time uses a client. If a second thread calls it meanwhile, that call returns BPFMAP_BUSY and sends nothing. So
 *   does each call after one that was left by longjmp or by a cancelled thread, until you close the client.
 * - After fork the client belongs to the process that connected it. In the other one a call that needs the connection returns
 *   BPFMAP_FORKED and sends nothing; bpfmap_reconnect gives that process a connection of its own. bpfmap_close there harms nobody.
 * - A reply may be NULL if you don't need it. */
#ifndef BPFMAP_CLIENT_H
#define BPFMAP_CLIENT_H

#include "bpfmap_session.h"

#include <errno.h>
#include <fcntl.h>
#include <netdb.h>
#include <netinet/in.h>
#include <netinet/tcp.h>
#include <poll.h>
#include <sys/socket.h>
#include <sys/time.h>
#include <sys/types.h>
#include <unistd.h>

#if !defined AI_NUMERICSERV || !defined MSG_NOSIGNAL || !defined MSG_DONTWAIT
#error "include bpfmap_client.h before other headers, or define _POSIX_C_SOURCE as 200809L"
#endif

/* Read `session.status`, `session.error` and `session.refusal`; the rest is the client's own. */
struct bpfmap_client {
    struct bpfmap_session session;
    int is_open, socket, timeout;
    int is_busy;    /* a call has not returned */
    int send_error; /* errno of a send that failed: what the server sent before is still read */
    pid_t process;  /* that connected it */
    struct sockaddr_storage address;
    socklen_t address_length;
};

/* ---- calls that overlap */

/* Begins a call. Returns BPFMAP_BUSY if another one has not returned. */
static inline enum bpfmap_status bpfmap_begin_call(struct bpfmap_client *client)
{
#if defined __GNUC__
    int was_busy = __atomic_exchange_n(&client->is_busy, 1, __ATOMIC_ACQUIRE);
#else
    int was_busy = client->is_busy;
    client->is_busy = 1;
#endif
    return was_busy ? BPFMAP_BUSY : BPFMAP_OK;
}

/* Ends a call that bpfmap_begin_call began. */
static inline enum bpfmap_status bpfmap_end_call(struct bpfmap_client *client, enum bpfmap_status status)
{
#if defined __GNUC__
    __atomic_store_n(&client->is_busy, 0, __ATOMIC_RELEASE);
#else
    client->is_busy = 0;
#endif
    return status;
}

/* ---- the connection */

/* Closes the connection for this reason, which all later calls get too. Answers that were received are still given. */
static inline BPFMAP_COLD enum bpfmap_status bpfmap_fail(struct bpfmap_client *client, enum bpfmap_status status, int error)
{
    int was_open = client->is_open;
    client->is_open = 0;
    if (was_open)
        close(client->socket);
    return bpfmap_session_end(&client->session, status, error);
}

/* Closes the connection. On a client that is closed, or all zeros, it does nothing. */
static inline void bpfmap_close(struct bpfmap_client *client)
{
    bpfmap_fail(client, BPFMAP_CLOSED, 0);
    bpfmap_session_forget(&client->session);
    bpfmap_end_call(client, BPFMAP_OK);
}

static inline long long bpfmap_milliseconds(void)
{
    struct timespec now;
    memset(&now, 0, sizeof now);
    clock_gettime(CLOCK_MONOTONIC, &now);
    return (long long)now.tv_sec * 1000 + now.tv_nsec / 1000000;
}

/* Waits until the socket can do one of these events, for at most so many milliseconds (0: without end). Returns the events; 0 after
 * the time; -1 with errno. */
static inline BPFMAP_COLD int bpfmap_wait(int socket, short events, int timeout)
{
    long long end = bpfmap_milliseconds() + timeout, left = timeout;
    struct pollfd watched;
    int count = -1;
    watched.fd = socket;
    watched.events = events;
    watched.revents = 0;
    while (timeout <= 0 || left > 0) {
        count = poll(&watched, 1, timeout > 0 ? (int)left : -1);
        if (count >= 0 || errno != EINTR)
            return count > 0 ? watched.revents : count;
        left = end - bpfmap_milliseconds();
    }
    return 0;
}

/* Connects a socket, and lets it block from then on. Returns 0, or an errno. */
static inline int bpfmap_finish_connect(int socket, const struct sockaddr *address, socklen_t length, int timeout)
{
    int error = 0, flags = fcntl(socket, F_GETFL), one = 1, ready;
    socklen_t size = sizeof error;
    struct timeval longest;
    longest.tv_sec = timeout / 1000;
    longest.tv_usec = timeout % 1000 * 1000;
    if (flags < 0 || fcntl(socket, F_SETFD, FD_CLOEXEC) < 0 || fcntl(socket, F_SETFL, flags | O_NONBLOCK) < 0)
        return errno;
    if (connect(socket, address, length) < 0) {
        if (errno != EINPROGRESS && errno != EINTR)
            return errno;
        ready = bpfmap_wait(socket, POLLOUT, timeout);
        if (ready <= 0)
            return ready < 0 ? errno : ETIMEDOUT;
        if (getsockopt(socket, SOL_SOCKET, SO_ERROR, &error, &size) < 0 || error)
            return error ? error : errno;
    }
    if (fcntl(socket, F_SETFL, flags) < 0 || setsockopt(socket, IPPROTO_TCP, TCP_NODELAY, &one, sizeof one) < 0 ||
        setsockopt(socket, SOL_SOCKET, SO_RCVTIMEO, &longest, sizeof longest) < 0)
        return errno;
    return 0;
}

/* Opens a connection to the client's address. Returns its socket, or -1 and an errno. */
static inline int bpfmap_open_socket(const struct bpfmap_client *client, int *error)
{
    int opened = socket(client->address.ss_family, SOCK_STREAM, 0);
    *error = opened < 0 ? errno
                        : bpfmap_finish_connect(opened, (const struct sockaddr *)&client->address, client->address_length,
                                                client->timeout);
    if (opened >= 0 && *error) {
        close(opened);
        opened = -1;
    }
    return opened;
}

/* Opens a connection to the first address of the host that answers, and keeps that address. Returns the socket; or -1 and an
 * errno, or 0 if there is no address. */
static inline int bpfmap_find_host(struct bpfmap_client *client, const char *host, const char *port, int *error)
{
    struct addrinfo hints, *found, *address;
    int opened = -1;
    *error = 0;
    memset(&hints, 0, sizeof hints);
    hints.ai_family = AF_UNSPEC;
    hints.ai_socktype = SOCK_STREAM;
    if (getaddrinfo(host, port, &hints, &found) != 0)
        return -1;
    for (address = found; address && opened < 0; address = address->ai_next) {
        memcpy(&client->address, address->ai_addr, address->ai_addrlen);
        client->address_length = address->ai_addrlen;
        opened = bpfmap_open_socket(client, error);
    }
    freeaddrinfo(found);
    return opened;
}

/* Returns BPFMAP_OK in the process that connected the client. In another one it lets go of the connection, and harms nobody. */
static inline enum bpfmap_status bpfmap_check_process(struct bpfmap_client *client)
{
    return client->process == getpid() ? BPFMAP_OK : bpfmap_fail(client, BPFMAP_FORKED, 0);
}

/* Waits for more bytes, and takes them; or for an end. There must be room. */
static inline enum bpfmap_status bpfmap_read_some(struct bpfmap_client *client)
{
    size_t length;
    uint8_t *room = bpfmap_session_room(&client->session, &length);
    ssize_t count = recv(client->socket, room, length, 0);
    int ready = 1;
    if (count > 0)
        bpfmap_session_received(&client->session, (size_t)count);
    if (count > 0)
        return BPFMAP_OK;
    if (count == 0)
        return bpfmap_fail(client, BPFMAP_BROKEN, client->send_error);
    if (errno == EINTR)
        ready = bpfmap_wait(client->socket, POLLIN, client->timeout);
    else if (errno == EAGAIN || errno == EWOULDBLOCK)
        ready = 0;
    else
        ready = -1;
    if (ready == 0)
        return bpfmap_fail(client, BPFMAP_TIMED_OUT, ETIMEDOUT);
    return ready < 0 ? bpfmap_fail(client, BPFMAP_BROKEN, errno) : BPFMAP_OK;
}

/* Sends what the system takes now. After a failure nothing more is sent; the server is told that, so that its answers end. */
static inline void bpfmap_send_some(struct bpfmap_client *client)
{
    struct bpfmap_span out = bpfmap_session_output(&client->session);
    ssize_t count = send(client->socket, out.bytes, out.length, MSG_DONTWAIT | MSG_NOSIGNAL);
    if (count >= 0) {
        bpfmap_session_sent(&client->session, (size_t)count);
    } else if (count < 0 && errno != EINTR && errno != EAGAIN && errno != EWOULDBLOCK) {
        client->session.error = client->send_error = errno;
        bpfmap_session_sent(&client->session, out.length);
        shutdown(client->socket, SHUT_WR);
    }
}

/* Takes one step of sending: sends what the system takes now. If that is not all, it waits until the system takes more, or until
 * the server sends, and reads that. So neither side waits for the other. Returns BPFMAP_UNREAD if there is no room to read. */
static inline BPFMAP_COLD enum bpfmap_status bpfmap_exchange(struct bpfmap_client *client)
{
    size_t room;
    int ready;
    bpfmap_send_some(client);
    if (bpfmap_session_output(&client->session).length == 0)
        return BPFMAP_OK;
    bpfmap_session_room(&client->session, &room);
    if (room == 0)
        return BPFMAP_UNREAD;
    ready = bpfmap_wait(client->socket, POLLIN | POLLOUT, client->timeout);
    if (ready < 0)
        return bpfmap_fail(client, BPFMAP_BROKEN, errno);
    if (ready == 0)
        return bpfmap_fail(client, BPFMAP_TIMED_OUT, ETIMEDOUT);
    return ready == POLLOUT ? BPFMAP_OK : bpfmap_read_some(client);
}

/* Sends all requests that are not sent, and waits until the server sends something. */
static inline BPFMAP_HOT enum bpfmap_status bpfmap_read_more(struct bpfmap_client *client)
{
    struct bpfmap_session *session = &client->session;
    size_t unread = session->in_end - session->in_begin;
    enum bpfmap_status status = bpfmap_check_process(client);
    if (status == BPFMAP_OK && session->out_begin < session->out_end)
        bpfmap_send_some(client);
    while (status == BPFMAP_OK && session->out_begin < session->out_end && session->in_end - session->in_begin == unread)
        status = bpfmap_exchange(client);
    return status == BPFMAP_OK && session->in_end - session->in_begin == unread ? bpfmap_read_some(client) : status;
}

/* ---- a request, and its answer */

/* Sends from the buffer until there is room for the request, and takes it. After a send that failed no request is taken. */
static inline BPFMAP_COLD enum bpfmap_status bpfmap_make_room_for(struct bpfmap_client *client,
                                                                  const struct bpfmap_request *request)
{
    enum bpfmap_status status = BPFMAP_FULL;
    while (status == BPFMAP_FULL) {
        status = bpfmap_check_process(client);
        if (status == BPFMAP_OK)
            status = bpfmap_exchange(client);
        if (status == BPFMAP_OK)
            status = client->send_error ? BPFMAP_BROKEN : bpfmap_session_ask(&client->session, request);
    }
    return status;
}

/* Waits for the next answer, and takes it. */
static inline BPFMAP_HOT enum bpfmap_status bpfmap_take_reply(struct bpfmap_client *client, struct bpfmap_reply *reply)
{
    enum bpfmap_status status;
    while ((status = bpfmap_try_next(&client->session, reply)) == BPFMAP_WAITING)
        bpfmap_read_more(client);
    if (status == BPFMAP_GARBLED)
        bpfmap_fail(client, status, 0);
    return status;
}

/* Registers the program of a request, and takes the request then. */
static inline BPFMAP_COLD enum bpfmap_status bpfmap_register_for(struct bpfmap_client *client,
                                                                 const struct bpfmap_request *request)
{
    struct bpfmap_request registration = bpfmap_request_of(BPFMAP_REGISTER);
    enum bpfmap_status status;
    registration.program = request->program;
    status = bpfmap_session_ask(&client->session, &registration);
    if (status == BPFMAP_OK)
        status = bpfmap_take_reply(client, NULL);
    return status == BPFMAP_OK ? bpfmap_session_ask(&client->session, request) : status;
}

/* Takes a request. If its program is not registered on this connection and no request waits, it registers the program first. */
static inline BPFMAP_HOT enum bpfmap_status bpfmap_take_request(struct bpfmap_client *client, const struct bpfmap_request *request)
{
    enum bpfmap_status status;
    if (!client->is_open)
        return bpfmap_session_end(&client->session, BPFMAP_CLOSED, 0);
    if (client->send_error)
        return BPFMAP_BROKEN;
    status = bpfmap_session_ask(&client->session, request);
    if (status == BPFMAP_FULL)
        return bpfmap_make_room_for(client, request);
    if (status == BPFMAP_UNREGISTERED && client->session.waiting == 0 && request->program)
        return bpfmap_register_for(client, request);
    return status == BPFMAP_GARBLED ? bpfmap_fail(client, status, 0) : status;
}

/* Returns BPFMAP_OK if no request waits for its answer, or what to do first. */
static inline enum bpfmap_status bpfmap_check_alone(const struct bpfmap_session *session)
{
    if (session->waiting == 0 || session->status != BPFMAP_OK)
        return BPFMAP_OK;
    return bpfmap_is_walk((enum bpfmap_call)session->calls[session->first_waiting]) ? BPFMAP_WALKING : BPFMAP_UNREAD;
}

/* Makes an empty reply, unless it is NULL, to a request that was not sent. */
static inline BPFMAP_COLD enum bpfmap_status bpfmap_clear_reply(struct bpfmap_client *client, const struct bpfmap_request *request,
                                                                enum bpfmap_status status, struct bpfmap_reply *reply)
{
    if (!reply)
        return status;
    bpfmap_clear(reply);
    reply->call = request->call;
    if (status == BPFMAP_REFUSED) {
        reply->kind = BPFMAP_REFUSAL;
        reply->refusal = client->session.refusal;
    }
    return status;
}

/* Sends a request and waits for its answer. No other request may wait for its answer. */
static inline enum bpfmap_status bpfmap_ask(struct bpfmap_client *client, const struct bpfmap_request *request,
                                            struct bpfmap_reply *reply)
{
    enum bpfmap_status status = bpfmap_begin_call(client);
    if (status == BPFMAP_BUSY)
        return bpfmap_clear_reply(client, request, status, reply);
    status = bpfmap_check_alone(&client->session);
    if (status == BPFMAP_OK)
        status = bpfmap_take_request(client, request);
    if (status == BPFMAP_OK) {
        bpfmap_read_more(client);
        status = bpfmap_take_reply(client, reply);
    } else {
        bpfmap_clear_reply(client, request, status, reply);
    }
    return bpfmap_end_call(client, status);
}

/* ---- pipelines: up to BPFMAP_DEPTH requests, and their answers in the same order */

/* Takes a request. It goes out when the buffer is full, at the latest when bpfmap_receive has to wait. If it returns BPFMAP_UNREAD
 * the request was not taken: receive an answer, and send it again. */
static inline enum bpfmap_status bpfmap_send(struct bpfmap_client *client, const struct bpfmap_request *request)
{
    enum bpfmap_status status = bpfmap_begin_call(client);
    return status == BPFMAP_BUSY ? status : bpfmap_end_call(client, bpfmap_take_request(client, request));
}

/* Waits for the next answer. A walk gives each Item by itself, and BPFMAP_END at last. Answers that came before the connection
 * failed are still received. */
static inline enum bpfmap_status bpfmap_receive(struct bpfmap_client *client, struct bpfmap_reply *reply)
{
    enum bpfmap_status status = bpfmap_begin_call(client);
    if (status != BPFMAP_BUSY)
        return bpfmap_end_call(client, bpfmap_take_reply(client, reply));
    bpfmap_clear(reply);
    return status;
}

/* ---- connecting */

/* Begins a session over the socket, or ends it if there is none. */
static inline enum bpfmap_status bpfmap_greet(struct bpfmap_client *client, int version, int opened, int error)
{
    enum bpfmap_status status;
    bpfmap_session_begin(&client->session, version);
    client->socket = opened;
    client->is_open = opened >= 0;
    client->send_error = 0;
    client->process = getpid();
    if (opened < 0 && error == 0)
        status = BPFMAP_NO_ADDRESS;
    else if (opened < 0)
        status = error == ETIMEDOUT ? BPFMAP_TIMED_OUT : BPFMAP_BROKEN;
    else
        status = bpfmap_take_reply(client, NULL);
    if (status != BPFMAP_OK) {
        bpfmap_fail(client, status, error);
        bpfmap_session_forget(&client->session);
    }
    return bpfmap_end_call(client, status);
}

/* Connects, and begins a session of this version of the protocol, 1 or 2. In version 1 values have at most 256 bytes, and an
 * answer with a longer one is refused with 65: then the call was made all the same. A server that does not know the version
 * refuses it with 64; nothing is tried a second time. */
static inline enum bpfmap_status bpfmap_connect_version(struct bpfmap_client *client, const char *host, const char *port,
                                                        int timeout, int version)
{
    int error, opened;
    client->is_busy = 1;
    client->is_open = 0;
    client->timeout = timeout;
    client->address_length = 0;
    opened = bpfmap_find_host(client, host, port, &error);
    return bpfmap_greet(client, version, opened, error);
}

/* Connects, and begins a session of version 2. The timeout in milliseconds is for each wait for the server's next bytes, or until
 * it takes more; 0 waits without end. If all workers of the server are busy, it answers when one of them is free. */
static inline enum bpfmap_status bpfmap_connect(struct bpfmap_client *client, const char *host, const char *port, int timeout)
{
    return bpfmap_connect_version(client, host, port, timeout, BPFMAP_VERSION);
}

/* Closes the connection if it is open, and connects to the same address again, by the same version: after a failure, after a walk
 * that you left, or in a child of fork. Programs with code are registered again when they are used. */
static inline enum bpfmap_status bpfmap_reconnect(struct bpfmap_client *client)
{
    int error = 0, opened = -1;
    bpfmap_close(client);
    client->is_busy = 1;
    if (client->address_length > 0)
        opened = bpfmap_open_socket(client, &error);
    return bpfmap_greet(client, client->session.version, opened, error);
}

/* ---- programs */

/* Registers a program's code. The calls below do so by themselves; call it to see a refusal early, or before you send a request
 * with the program in a pipeline. The reply has the number of the program, which is the same for all clients of this server. */
static inline enum bpfmap_status bpfmap_register(struct bpfmap_client *client, const struct bpfmap_program *program,
                                                 struct bpfmap_reply *reply)
{
    struct bpfmap_request request = bpfmap_request_of(BPFMAP_REGISTER);
    request.program = program;
    return bpfmap_ask(client, &request, reply);
}

/* Returns the program that this connection's server knows by this number, which another client may have registered. On any other
 * connection it is refused with BPFMAP_STALE, before anything is sent. */
static inline struct bpfmap_program bpfmap_numbered(const struct bpfmap_client *client, uint64_t number)
{
    return bpfmap_session_numbered(&client->session, number);
}

/* ---- the calls of Java's ConcurrentMap */

/* Asks for a key's value. Returns BPFMAP_ABSENT if it has none. */
static inline enum bpfmap_status bpfmap_get(struct bpfmap_client *client, struct bpfmap_span key, struct bpfmap_reply *reply)
{
    struct bpfmap_request request;
    bpfmap_begin_request(&request, BPFMAP_GET);
    request.key = key;
    return bpfmap_ask(client, &request, reply);
}

/* Puts a value. The reply has the old one, or its kind is BPFMAP_NOTHING. */
static inline enum bpfmap_status bpfmap_put(struct bpfmap_client *client, struct bpfmap_span key, struct bpfmap_span value,
                                            struct bpfmap_reply *reply)
{
    struct bpfmap_request request;
    bpfmap_begin_request(&request, BPFMAP_PUT);
    request.key = key;
    request.value = value;
    return bpfmap_ask(client, &request, reply);
}

/* Puts a value if the key has none. Returns BPFMAP_UNCHANGED if it has one, which is in the reply. */
static inline enum bpfmap_status bpfmap_put_if_absent(struct bpfmap_client *client, struct bpfmap_span key,
                                                      struct bpfmap_span value, struct bpfmap_reply *reply)
{
    struct bpfmap_request request;
    bpfmap_begin_request(&request, BPFMAP_PUT_IF_ABSENT);
    request.key = key;
    request.value = value;
    return bpfmap_ask(client, &request, reply);
}

/* Removes a key. The reply has its value. Returns BPFMAP_ABSENT if it had none. */
static inline enum bpfmap_status bpfmap_remove(struct bpfmap_client *client, struct bpfmap_span key, struct bpfmap_reply *reply)
{
    struct bpfmap_request request;
    bpfmap_begin_request(&request, BPFMAP_REMOVE);
    request.key = key;
    return bpfmap_ask(client, &request, reply);
}

/* Removes a key if it has the expected value. Returns BPFMAP_UNCHANGED if it has not. */
static inline enum bpfmap_status bpfmap_remove_if(struct bpfmap_client *client, struct bpfmap_span key,
                                                  struct bpfmap_span expected, struct bpfmap_reply *reply)
{
    struct bpfmap_request request;
    bpfmap_begin_request(&request, BPFMAP_REMOVE_IF);
    request.key = key;
    request.expected = expected;
    return bpfmap_ask(client, &request, reply);
}

/* Puts a value if the key has one. The reply has the old one. Returns BPFMAP_ABSENT if it has none. */
static inline enum bpfmap_status bpfmap_replace(struct bpfmap_client *client, struct bpfmap_span key, struct bpfmap_span value,
                                                struct bpfmap_reply *reply)
{
    struct bpfmap_request request;
    bpfmap_begin_request(&request, BPFMAP_REPLACE);
    request.key = key;
    request.value = value;
    return bpfmap_ask(client, &request, reply);
}

/* Puts a value if the key has the expected one. Returns BPFMAP_UNCHANGED if it has not. */
static inline enum bpfmap_status bpfmap_replace_if(struct bpfmap_client *client, struct bpfmap_span key,
                                                   struct bpfmap_span expected, struct bpfmap_span value,
                                                   struct bpfmap_reply *reply)
{
    struct bpfmap_request request;
    bpfmap_begin_request(&request, BPFMAP_REPLACE_IF);
    request.key = key;
    request.expected = expected;
    request.value = value;
    return bpfmap_ask(client, &request, reply);
}

/* Makes a call with a key, a program and an argument. */
static inline enum bpfmap_status bpfmap_ask_compute(struct bpfmap_client *client, enum bpfmap_call call, struct bpfmap_span key,
                                                    const struct bpfmap_program *program, struct bpfmap_span arg,
                                                    struct bpfmap_reply *reply)
{
    struct bpfmap_request request;
    bpfmap_begin_request(&request, call);
    request.key = key;
    request.program = program;
    request.arg = arg;
    return bpfmap_ask(client, &request, reply);
}

/* Runs the program on the key. The reply has the new value. Returns BPFMAP_ABSENT if the program answered nothing, so that the key
 * has no value now; BPFMAP_UNFIT if the program did not run. */
static inline enum bpfmap_status bpfmap_compute(struct bpfmap_client *client, struct bpfmap_span key,
                                                const struct bpfmap_program *program, struct bpfmap_span arg,
                                                struct bpfmap_reply *reply)
{
    return bpfmap_ask_compute(client, BPFMAP_COMPUTE, key, program, arg, reply);
}

/* Runs the program if the key has no value. The reply has the value that the key has now. Returns BPFMAP_ABSENT and BPFMAP_UNFIT as
 * bpfmap_compute does. */
static inline enum bpfmap_status bpfmap_compute_if_absent(struct bpfmap_client *client, struct bpfmap_span key,
                                                          const struct bpfmap_program *program, struct bpfmap_span arg,
                                                          struct bpfmap_reply *reply)
{
    return bpfmap_ask_compute(client, BPFMAP_COMPUTE_IF_ABSENT, key, program, arg, reply);
}

/* Runs the program if the key has a value. The reply has the new one. Returns BPFMAP_ABSENT if the key has none now, and
 * BPFMAP_UNFIT as bpfmap_compute does. */
static inline enum bpfmap_status bpfmap_compute_if_present(struct bpfmap_client *client, struct bpfmap_span key,
                                                           const struct bpfmap_program *program, struct bpfmap_span arg,
                                                           struct bpfmap_reply *reply)
{
    return bpfmap_ask_compute(client, BPFMAP_COMPUTE_IF_PRESENT, key, program, arg, reply);
}

/* Puts the value if the key has none, or else runs the program with it as the argument. The reply has the new value. Returns
 * BPFMAP_ABSENT if the program answered nothing, so that the key has no value now; BPFMAP_UNFIT if the program did not run. */
static inline enum bpfmap_status bpfmap_merge(struct bpfmap_client *client, struct bpfmap_span key, struct bpfmap_span value,
                                              const struct bpfmap_program *program, struct bpfmap_reply *reply)
{
    struct bpfmap_request request;
    bpfmap_begin_request(&request, BPFMAP_MERGE);
    request.key = key;
    request.value = value;
    request.program = program;
    return bpfmap_ask(client, &request, reply);
}

/* Runs the program on all entries. An answer is its key's new value. The reply has the counts. */
static inline enum bpfmap_status bpfmap_replace_all(struct bpfmap_client *client, const struct bpfmap_program *program,
                                                    struct bpfmap_span arg, struct bpfmap_reply *reply)
{
    return bpfmap_ask_compute(client, BPFMAP_REPLACE_ALL, bpfmap_none(), program, arg, reply);
}

/* Counts the entries: the reply's `scanned`. */
static inline enum bpfmap_status bpfmap_count(struct bpfmap_client *client, struct bpfmap_reply *reply)
{
    struct bpfmap_request request;
    bpfmap_begin_request(&request, BPFMAP_COUNT);
    return bpfmap_ask(client, &request, reply);
}

/* ---- walks: a stream of Items. Items come as the server sends them, and are kept nowhere */

/* Begins a walk, if no request waits for its answer. */
static inline enum bpfmap_status bpfmap_begin_walk(struct bpfmap_client *client, enum bpfmap_call call,
                                                   const struct bpfmap_program *program, struct bpfmap_span arg,
                                                   uint64_t threshold)
{
    struct bpfmap_request request;
    bpfmap_begin_request(&request, call);
    enum bpfmap_status status = bpfmap_begin_call(client);
    if (status == BPFMAP_BUSY)
        return status;
    request.program = program;
    request.arg = arg;
    request.threshold = threshold;
    status = bpfmap_check_alone(&client->session);
    return bpfmap_end_call(client, status == BPFMAP_OK ? bpfmap_take_request(client, &request) : status);
}

/* Begins a walk. Then call bpfmap_receive while it returns BPFMAP_OK: each time the reply has an Item, the program's answer at the
 * key. It returns BPFMAP_END, with the counts, after the last one. Any other call returns BPFMAP_WALKING meanwhile. */
static inline enum bpfmap_status bpfmap_begin_for_each(struct bpfmap_client *client, const struct bpfmap_program *program,
                                                       struct bpfmap_span arg, uint64_t threshold)
{
    return bpfmap_begin_walk(client, BPFMAP_FOR_EACH, program, arg, threshold);
}

/* Begins a walk like bpfmap_begin_for_each, but with one Item at most: the answer at the least key that has one. */
static inline enum bpfmap_status bpfmap_begin_search(struct bpfmap_client *client, const struct bpfmap_program *program,
                                                     struct bpfmap_span arg, uint64_t threshold)
{
    return bpfmap_begin_walk(client, BPFMAP_SEARCH, program, arg, threshold);
}

/* Ends a walk. After its end that does nothing, and returns BPFMAP_OK. Before, it closes the connection, since the rest of the
 * Items is still to come, and returns BPFMAP_CLOSED: call bpfmap_reconnect to go on. */
static inline enum bpfmap_status bpfmap_leave_walk(struct bpfmap_client *client)
{
    if (client->session.waiting > 0)
        bpfmap_close(client);
    return client->session.status;
}

/* ---- messages */

/* Returns what a status means, and what to do; for a refusal with its number and place. The text is the client's, until you ask
 * again. */
static inline const char *bpfmap_explain(struct bpfmap_client *client, enum bpfmap_status status)
{
    return bpfmap_session_explain(&client->session, status);
}

#endif
