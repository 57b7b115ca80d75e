/* Times clients of a server that speaks RESP2 on loopback, first alone and then beside bad ones: one thread, epoll, plain sockets.
   crowd PORT WORKING DRIPPING DEAF MILLISECONDS
   WORKING clients each ask GET and wait for the reply, over and over. A dripping client sends a byte of a command a second. A deaf one
   asked for replies of 200 KiB and never reads. It prints for both: requests a second, and microseconds until a reply came, in the middle,
   for 99 of 100, and at worst. */
#include <arpa/inet.h>
#include <fcntl.h>
#include <netinet/tcp.h>
#include <stdint.h>
#include <stdio.h>
#include <stdlib.h>
#include <string.h>
#include <sys/epoll.h>
#include <sys/socket.h>
#include <time.h>
#include <unistd.h>

enum { MOST_WORKING = 1000, MOST_BAD = 20000, MOST_SAMPLES = 4000000, VALUE = 1024, UNREAD = 200, FEW = 4096, SECOND = 1000000000 };

struct client {
    int socket;
    uint64_t asked;
};

static struct client working[MOST_WORKING];
static int dripping[MOST_BAD], deaf[MOST_BAD];
static uint32_t samples[MOST_SAMPLES];
static const char question[] = "GET k\r\n";
/* Its third word has 60,000 bytes, so at a byte a second it doesn't end here. */
static const char drip[] = "*3\r\n$3\r\nSET\r\n$1\r\nk\r\n$60000\r\n";
static uint16_t port;

static void fail(const char *what)
{
    perror(what);
    exit(1);
}

static uint64_t now(void)
{
    struct timespec time;
    clock_gettime(CLOCK_MONOTONIC, &time);
    return (uint64_t)time.tv_sec * SECOND + (uint64_t)time.tv_nsec;
}

/* A connection; its system buffer for what comes in has this many bytes, or as many as usual. */
static int connected(int buffer)
{
    struct sockaddr_in address = {.sin_family = AF_INET, .sin_port = htons(port), .sin_addr.s_addr = htonl(INADDR_LOOPBACK)};
    int one = 1, it = socket(AF_INET, SOCK_STREAM, 0);
    if (buffer)
        setsockopt(it, SOL_SOCKET, SO_RCVBUF, &buffer, sizeof buffer);
    if (it < 0 || connect(it, (struct sockaddr *)&address, sizeof address) != 0)
        fail("connect");
    setsockopt(it, IPPROTO_TCP, TCP_NODELAY, &one, sizeof one);
    return it;
}

static void say(int socket, const char *bytes, size_t length)
{
    if (send(socket, bytes, length, MSG_NOSIGNAL) != (ssize_t)length)
        fail("send");
}

/* The value that all ask for. */
static void set_value(void)
{
    char command[VALUE + 64], reply[16];
    int length, it = connected(0);
    memset(command, 'v', sizeof command);
    length = sprintf(command, "*3\r\n$3\r\nSET\r\n$1\r\nk\r\n$%d\r\n", VALUE);
    command[length] = 'v';
    memcpy(command + length + VALUE, "\r\n", 2);
    say(it, command, (size_t)length + VALUE + 2);
    if (recv(it, reply, sizeof reply, 0) < 1 || memcmp(reply, "+OK", 3) != 0)
        fail("SET");
    close(it);
}

static void ask(struct client *client)
{
    client->asked = now();
    say(client->socket, question, sizeof question - 1);
}

/* Reads a reply, which comes in one piece. */
static void hear(struct client *client)
{
    char reply[VALUE + 64];
    ssize_t length = recv(client->socket, reply, sizeof reply, 0);
    if (length < VALUE)
        fail("a reply");
}

static void open_bad(int drips, int silent)
{
    for (int i = 0; i < drips; i++)
        dripping[i] = connected(0);
    for (int i = 0; i < silent; i++) {
        deaf[i] = connected(FEW);
        for (int n = 0; n < UNREAD; n++)
            say(deaf[i], question, sizeof question - 1);
    }
}

/* Sends the bytes that are due: each dripping client's turn comes once a second. */
static void send_drips(int drips, uint64_t begun, uint64_t *sent)
{
    uint64_t due = drips ? (now() - begun) * (uint64_t)drips / SECOND : 0;
    for (; *sent < due; ++*sent) {
        uint64_t round = *sent / (uint64_t)drips;
        const char *byte = round < sizeof drip - 1 ? drip + round : "v";
        say(dripping[*sent % (uint64_t)drips], byte, 1);
    }
}

static int by_size(const void *one, const void *other)
{
    uint32_t a = *(const uint32_t *)one, b = *(const uint32_t *)other;
    return a < b ? -1 : a > b;
}

static double tell(const char *when, size_t count, uint64_t taken)
{
    double rate = (double)count * SECOND / (double)taken;
    qsort(samples, count, sizeof *samples, by_size);
    printf("%s: %.0f requests a second; %u us in the middle, %u for 99 of 100, %u at worst\n", when, rate, samples[count / 2] / 1000,
           samples[count * 99 / 100] / 1000, samples[count - 1] / 1000);
    return rate;
}

static double measure(const char *when, int poll, int clients, int drips, long milliseconds)
{
    struct epoll_event events[MOST_WORKING];
    uint64_t begun = now(), end = begun + (uint64_t)milliseconds * 1000000, sent = 0;
    size_t count = 0;
    for (int i = 0; i < clients; i++)
        ask(&working[i]);
    while (now() < end && count + MOST_WORKING < MOST_SAMPLES) {
        int ready = epoll_wait(poll, events, MOST_WORKING, 1);
        for (int i = 0; i < ready; i++) {
            struct client *client = &working[events[i].data.u32];
            hear(client);
            samples[count++] = (uint32_t)(now() - client->asked);
            ask(client);
        }
        send_drips(drips, begun, &sent);
    }
    for (int i = 0; i < clients; i++)
        hear(&working[i]);
    return tell(when, count, now() - begun);
}

int main(int words, char **word)
{
    int poll = epoll_create1(0), clients = words == 6 ? atoi(word[2]) : 0, drips = words == 6 ? atoi(word[3]) : 0;
    int silent = words == 6 ? atoi(word[4]) : 0;
    double alone, beside;
    if (clients < 1 || clients > MOST_WORKING || drips < 0 || drips > MOST_BAD || silent < 0 || silent > MOST_BAD) {
        fprintf(stderr, "crowd PORT WORKING DRIPPING DEAF MILLISECONDS\n");
        return 2;
    }
    port = (uint16_t)atoi(word[1]);
    set_value();
    for (int i = 0; i < clients; i++) {
        struct epoll_event event = {.events = EPOLLIN, .data.u32 = (uint32_t)i};
        working[i].socket = connected(0);
        epoll_ctl(poll, EPOLL_CTL_ADD, working[i].socket, &event);
    }
    alone = measure("alone", poll, clients, 0, atol(word[5]));
    open_bad(drips, silent);
    beside = measure("beside the bad ones", poll, clients, drips, atol(word[5]));
    printf("%.2f of the rate\n", beside / alone);
    return 0;
}
