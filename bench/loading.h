/* What the clients share that load a server on loopback, redis_load.c and memcached_load.c: one thread, epoll, plain sockets. Each connection
   sends as many requests as it is deep, reads all replies, and begins again. A client names itself in CLIENT before it includes this, and
   defines the three functions that are only declared here. */
#include <arpa/inet.h>
#include <dirent.h>
#include <netinet/tcp.h>
#include <stdarg.h>
#include <stdint.h>
#include <stdio.h>
#include <stdlib.h>
#include <string.h>
#include <sys/epoll.h>
#include <sys/resource.h>
#include <sys/socket.h>
#include <time.h>
#include <unistd.h>

enum { MOST_KEYS = 1000, MOST_CONNECTIONS = 20000, MOST_DEPTH = 64, WAITING = 256 };

struct line {
    int socket;
    uint32_t key;        /* the number of its next request */
    unsigned lines_left; /* of the replies that it waits for */
    int is_in_line;
};

static struct sockaddr_in address = {.sin_family = AF_INET};
static const char *operation, *process;
static int depth;
static uint32_t keys;
static struct line lines[MOST_CONNECTIONS];

/* Sends as many requests as a connection is deep. */
static void speak(struct line *line);

/* Reads what there is; whether all replies have come. */
static int is_answered(struct line *line);

/* Whether a reply that begins so is an error. */
static int is_error(const char *reply);

static void fail(const char *format, ...)
{
    va_list words;
    va_start(words, format);
    fprintf(stderr, CLIENT ": ");
    vfprintf(stderr, format, words);
    fprintf(stderr, "\n");
    va_end(words);
    exit(1);
}

static uint64_t nanoseconds(void)
{
    struct timespec now;
    clock_gettime(CLOCK_MONOTONIC, &now);
    return (uint64_t)now.tv_sec * 1000000000 + (uint64_t)now.tv_nsec;
}

/* The processor time that all threads of the server have had, of their own and of the system for them. */
static uint64_t processor_nanoseconds(void)
{
    char name[300];
    uint64_t all = 0;
    struct dirent *task;
    DIR *tasks;
    snprintf(name, sizeof name, "/proc/%s/task", process);
    tasks = opendir(name);
    if (!tasks)
        fail("there is no process %s", process);
    while ((task = readdir(tasks))) {
        unsigned long long had = 0;
        FILE *file;
        snprintf(name, sizeof name, "/proc/%s/task/%s/schedstat", process, task->d_name);
        file = task->d_name[0] == '.' ? NULL : fopen(name, "r");
        if (file && fscanf(file, "%llu", &had) == 1)
            all += had;
        if (file)
            fclose(file);
    }
    closedir(tasks);
    return all;
}

static long resident_bytes(void)
{
    char name[64];
    long pages = 0;
    FILE *file;
    snprintf(name, sizeof name, "/proc/%s/statm", process);
    file = fopen(name, "r");
    if (!file || fscanf(file, "%*d %ld", &pages) != 1)
        fail("the memory of %s is not told", process);
    fclose(file);
    return pages * sysconf(_SC_PAGESIZE);
}

static int connected(void)
{
    int one = 1, opened = socket(AF_INET, SOCK_STREAM, 0);
    if (opened < 0 || connect(opened, (struct sockaddr *)&address, sizeof address) != 0)
        fail("no connection: are there enough descriptors (ulimit -n)?");
    setsockopt(opened, IPPROTO_TCP, TCP_NODELAY, &one, sizeof one);
    return opened;
}

static void send_all(int to, const char *bytes, size_t length)
{
    while (length > 0) {
        ssize_t sent = send(to, bytes, length, MSG_NOSIGNAL);
        if (sent <= 0)
            fail("the server takes nothing");
        bytes += sent;
        length -= (size_t)sent;
    }
}

/* Sends bytes on a connection of its own, and gives the reply, of this many lines. */
static const char *ask(int to, const char *bytes, size_t length, int count)
{
    static char reply[200];
    size_t got = 0;
    send_all(to, bytes, length);
    for (int told = 0; told < count;) {
        if (got + 1 >= sizeof reply || recv(to, reply + got, 1, 0) != 1)
            fail("no reply to %.20s", bytes);
        reply[++got] = 0;
        if (reply[got - 1] != '\n')
            continue;
        told++;
        if (is_error(reply))
            fail("%.40s is answered %s", bytes, reply);
    }
    return reply;
}

/* The key of a request. Of 1,000 keys or one each comes once, in no order. */
static uint32_t key_of(uint32_t number) { return number % keys * 761 % keys; }

/* Keeps all connections busy until the time is over, and receives all replies; how many requests were answered. */
static uint64_t load(int poll, int connections, uint64_t until)
{
    struct epoll_event events[WAITING];
    uint64_t answered = 0;
    int busy = connections;
    for (int i = 0; i < connections; i++)
        speak(&lines[i]);
    while (busy > 0) {
        int count = epoll_wait(poll, events, WAITING, 10000);
        if (count <= 0)
            fail("no reply for ten seconds");
        for (int i = 0; i < count; i++) {
            struct line *line = events[i].data.ptr;
            if (!is_answered(line))
                continue;
            answered += (uint64_t)depth;
            if (nanoseconds() < until)
                speak(line);
            else
                busy--;
        }
    }
    return answered;
}

/* The same for some milliseconds. Prints how many requests were answered, in how many nanoseconds, and how many nanoseconds of processor
   time the server had meanwhile. */
static uint64_t timed(int poll, int connections, const char *milliseconds)
{
    uint64_t had = processor_nanoseconds(), begun = nanoseconds();
    uint64_t answered = load(poll, connections, begun + strtoull(milliseconds, NULL, 10) * 1000000);
    printf("%llu %llu %llu", (unsigned long long)answered, (unsigned long long)(nanoseconds() - begun),
           (unsigned long long)(processor_nanoseconds() - had));
    return answered;
}

/* Opens the connections. Each asks once, so that the server has accepted it before the next one comes. */
static void open_lines(int poll, int connections, const char *hello)
{
    for (int i = 0; i < connections; i++) {
        struct epoll_event event = {.events = EPOLLIN, .data.ptr = &lines[i]};
        lines[i].socket = connected();
        ask(lines[i].socket, hello, strlen(hello), 1);
        lines[i].key = (uint32_t)i * 7919;
        epoll_ctl(poll, EPOLL_CTL_ADD, lines[i].socket, &event);
    }
}

/* Reads the words PORT OPERATION CONNECTIONS DEPTH MILLISECONDS PROCESS, and how many keys there are; how many connections are asked for, or
   0 if the numbers don't fit. */
static int read_words(char **word, const char *keys_word)
{
    struct rlimit descriptors = {MOST_CONNECTIONS + 100, MOST_CONNECTIONS + 100};
    int connections = atoi(word[3]), count = atoi(keys_word);
    setrlimit(RLIMIT_NOFILE, &descriptors);
    address.sin_port = htons((uint16_t)atoi(word[1]));
    address.sin_addr.s_addr = htonl(INADDR_LOOPBACK);
    operation = word[2], depth = atoi(word[4]), process = word[6], keys = (uint32_t)count;
    if (connections < 1 || connections > MOST_CONNECTIONS || depth < 1 || depth > MOST_DEPTH || count < 1 || count > MOST_KEYS)
        return 0;
    return connections;
}
