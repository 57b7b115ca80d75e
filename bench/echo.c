/* The least that a server for redis_load.c does: it reads what a client sends, and writes fixed replies back, one for each request of a
   piece, by one read and one write, over epoll. It knows no command: so its processor time is the system's, and what any server with a read
   and a write a request needs beside its own work.
   echo PORT WORKERS
   Each worker is a thread, and waits at an epoll of its own. With no worker each client has a thread, which waits at its read alone. A request has
   a star only at its begin, so the stars are counted. */
#include <arpa/inet.h>
#include <netinet/tcp.h>
#include <pthread.h>
#include <stdint.h>
#include <stdio.h>
#include <stdlib.h>
#include <string.h>
#include <sys/epoll.h>
#include <sys/resource.h>
#include <sys/socket.h>
#include <unistd.h>

enum { PIECE = 1 << 16, WAITING = 128, MOST_WORKERS = 64 };

static int listener;

static void fail(const char *what)
{
    perror(what);
    exit(1);
}

/* The reply to a request: PING's, SCRIPT LOAD's, an EXISTS that finds nothing, a value of GET, or a number. */
static size_t reply(char *to, const char *request)
{
    static const char loaded[] = "$40\r\n0000000000000000000000000000000000000000\r\n";
    const char *text = strncmp(request, "*2\r\n$3\r\nGET", 11) == 0 ? "$8\r\n10000000\r\n"
                     : strncmp(request, "*3\r\n$6\r\nSCRIPT", 14) == 0 ? loaded : ":0\r\n";
    size_t length = strlen(text);
    memcpy(to, text, length);
    return length;
}

/* Reads once, and answers all that came; whether the client stays. */
static int answer(int client)
{
    static _Thread_local char piece[PIECE + 1], replies[16 * PIECE];
    ssize_t got = recv(client, piece, PIECE, 0);
    size_t length = 0;
    if (got <= 0) {
        close(client);
        return 0;
    }
    piece[got] = 0;
    if (*piece != '*')
        length = reply(replies, piece);
    for (const char *at = strchr(piece, '*'); at; at = strchr(at + 1, '*'))
        length += reply(replies + length, at);
    if (send(client, replies, length, MSG_NOSIGNAL) == (ssize_t)length)
        return 1;
    close(client);
    return 0;
}

static void *answer_all(void *client)
{
    while (answer((int)(intptr_t)client))
        ;
    return NULL;
}

/* A thread for each client. */
static void serve_each(void)
{
    pthread_t thread;
    int client, one = 1;
    while ((client = accept(listener, NULL, NULL)) >= 0) {
        setsockopt(client, IPPROTO_TCP, TCP_NODELAY, &one, sizeof one);
        if (pthread_create(&thread, NULL, answer_all, (void *)(intptr_t)client) != 0 || pthread_detach(thread) != 0)
            fail("pthread_create");
    }
    fail("accept");
}

static void *work(void *unused)
{
    struct epoll_event events[WAITING], event = {.events = EPOLLIN | EPOLLEXCLUSIVE, .data.fd = listener};
    int poll = epoll_create1(0), one = 1;
    epoll_ctl(poll, EPOLL_CTL_ADD, listener, &event);
    event.events = EPOLLIN;
    for (;;) {
        int count = epoll_wait(poll, events, WAITING, -1);
        for (int i = 0; i < count; i++) {
            if (events[i].data.fd != listener) {
                answer(events[i].data.fd);
            } else if ((event.data.fd = accept(listener, NULL, NULL)) >= 0) {
                setsockopt(event.data.fd, IPPROTO_TCP, TCP_NODELAY, &one, sizeof one);
                epoll_ctl(poll, EPOLL_CTL_ADD, event.data.fd, &event);
            }
        }
    }
    return unused;
}

int main(int words, char **word)
{
    struct sockaddr_in address = {.sin_family = AF_INET, .sin_addr.s_addr = htonl(INADDR_LOOPBACK)};
    struct rlimit descriptors = {20100, 20100};
    int one = 1, workers = words == 3 ? atoi(word[2]) : -1;
    pthread_t thread;
    if (workers < 0 || workers > MOST_WORKERS) {
        fprintf(stderr, "echo PORT WORKERS\n");
        return 2;
    }
    setrlimit(RLIMIT_NOFILE, &descriptors);
    address.sin_port = htons((uint16_t)atoi(word[1]));
    listener = socket(AF_INET, SOCK_STREAM | (workers > 0 ? SOCK_NONBLOCK : 0), 0);
    setsockopt(listener, SOL_SOCKET, SO_REUSEADDR, &one, sizeof one);
    if (bind(listener, (struct sockaddr *)&address, sizeof address) != 0 || listen(listener, 4096) != 0)
        fail("listen");
    printf("ready\n");
    fflush(stdout);
    if (workers == 0)
        serve_each();
    while (--workers > 0)
        pthread_create(&thread, NULL, work, NULL);
    work(NULL);
}
