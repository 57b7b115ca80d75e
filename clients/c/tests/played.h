/* A server in a thread of the test, which answers the Hello of one connection by a version and then plays what a test says.
 * Included after server.h. */
#ifndef PLAYED_H
#define PLAYED_H

#include <arpa/inet.h>
#include <pthread.h>

struct played {
    pthread_t thread;
    int listener;
    void (*play)(int connection, const void *given);
    const void *given;
    int greets; /* the version, or 0 */
    char port[8];
};

static inline void send_bytes(int connection, const void *bytes, size_t length)
{
    CHECK(send(connection, bytes, length, MSG_NOSIGNAL) == (ssize_t)length, "a played server can't send");
}

/* Reads so many bytes, or ends where the client has gone. */
static inline void skip_bytes(int connection, size_t length)
{
    uint8_t byte;
    while (length > 0 && recv(connection, &byte, 1, 0) == 1)
        length--;
}

/* Reads a whole request. */
static inline void skip_request(int connection)
{
    uint8_t head[4];
    if (recv(connection, head, sizeof head, MSG_WAITALL) == (ssize_t)sizeof head)
        skip_bytes(connection, bpfmap_read32(head));
}

/* Reads all that comes and sends nothing. */
static inline void be_silent(int connection, const void *given)
{
    (void)given;
    skip_bytes(connection, SIZE_MAX);
}

static inline void *serve_once(void *given)
{
    struct played *played = (struct played *)given;
    uint8_t welcome[] = {0, 0, 0, 2, 0x80, (uint8_t)played->greets};
    int connection = accept(played->listener, NULL, NULL);
    CHECK(connection >= 0, "a played server can't accept");
    skip_bytes(connection, 6);
    if (played->greets)
        send_bytes(connection, welcome, sizeof welcome);
    played->play(connection, played->given);
    close(connection);
    return NULL;
}

static inline void start_played(struct played *played)
{
    struct sockaddr_in address = {.sin_family = AF_INET, .sin_addr = {htonl(INADDR_LOOPBACK)}};
    socklen_t size = sizeof address;
    int little = 4096;
    played->listener = socket(AF_INET, SOCK_STREAM, 0);
    CHECK(played->listener >= 0 && setsockopt(played->listener, SOL_SOCKET, SO_RCVBUF, &little, sizeof little) == 0 &&
              bind(played->listener, (struct sockaddr *)&address, sizeof address) == 0 && listen(played->listener, 1) == 0 &&
              getsockname(played->listener, (struct sockaddr *)&address, &size) == 0,
          "a played server can't listen");
    sprintf(played->port, "%u", (unsigned)ntohs(address.sin_port));
    CHECK(pthread_create(&played->thread, NULL, serve_once, played) == 0, "no thread");
}

static inline void end_played(struct played *played)
{
    pthread_join(played->thread, NULL);
    close(played->listener);
}

#endif
