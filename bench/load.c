/* Loads a server on loopback, one thread a connection, each with so many requests on their way: `mapd` by the C client, or Redis by
   the same client's buffers and sockets.
   load mapd PORT get|put|merge CONNECTIONS DEPTH MILLISECONDS PROCESS
   load redis PORT get|set|incrby|evalsha CONNECTIONS DEPTH MILLISECONDS PROCESS
   prints how many requests were answered, in how many nanoseconds, and how many nanoseconds of processor time the server's
   process had meanwhile. Keys and values have 8 bytes. What was added is counted at the end. */
#include "../clients/c/bpfmap_client.h"
#include <pthread.h>
#include <signal.h>
#include <stdio.h>
#include <stdlib.h>
#include <time.h>

enum { KEYS = 1000, KEY_LENGTH = 8, MOST_CONNECTIONS = 64, MOST_REQUESTS = 20000000, TIMEOUT = 10000, SHA_LENGTH = 40 };

struct operation {
    const char *name;
    enum bpfmap_call call;       /* of mapd */
    const char *before, *behind; /* of Redis: what is sent before and behind the key; %s is the script's name */
    int adds;
};

static const struct operation map_operations[] = {
    {"get", BPFMAP_GET, NULL, NULL, 0}, {"put", BPFMAP_PUT, NULL, NULL, 0}, {"merge", BPFMAP_MERGE, NULL, NULL, 1}, {0}};

static const struct operation redis_operations[] = {
    {"get", 0, "*2\r\n$3\r\nGET\r\n$8\r\n", "\r\n", 0},
    {"set", 0, "*3\r\n$3\r\nSET\r\n$8\r\n", "\r\n$8\r\n10000000\r\n", 0},
    {"incrby", 0, "*3\r\n$6\r\nINCRBY\r\n$8\r\n", "\r\n$1\r\n1\r\n", 1},
    {"evalsha", 0, "*5\r\n$7\r\nEVALSHA\r\n$40\r\n%s\r\n$1\r\n1\r\n$8\r\n", "\r\n$1\r\n1\r\n", 1},
    {0}};

static const char script[] =
    "local sum = redis.call('GET', KEYS[1]) + ARGV[1]; redis.call('SET', KEYS[1], sum); return sum";

/* What all connections do. */
static const char *port;
static const struct operation *operation;
static int is_redis, depth;
static struct bpfmap_program program;
static char before[200];
static pthread_barrier_t ready;
static int is_over;

struct line {
    pthread_t thread;
    struct bpfmap_client client;
    uint64_t key, answered;
};

#define NEED(holds, ...)                                                                                               \
    do {                                                                                                               \
        if (!(holds)) {                                                                                                \
            fprintf(stderr, "load: ");                                                                                 \
            fprintf(stderr, __VA_ARGS__);                                                                              \
            fprintf(stderr, "\n");                                                                                     \
            exit(1);                                                                                                   \
        }                                                                                                              \
    } while (0)

static void write_key(char *key, uint64_t number)
{
    char digits[24];
    sprintf(digits, "%08u", (unsigned)(number % KEYS));
    memcpy(key, digits, KEY_LENGTH);
}

/* ---- requests and answers of Redis, over the client's buffers */

static void redis_send(struct bpfmap_client *client, const char *bytes, size_t length)
{
    struct bpfmap_session *session = &client->session;
    while (!bpfmap_make_out_room(session, length))
        NEED(bpfmap_exchange(client) == BPFMAP_OK && !client->send_error, "Redis takes nothing");
    memcpy(session->out + session->out_end, bytes, length);
    session->out_end += length;
}

/* The bytes of the next answer, up to and with the newline of its first line or of its text; 0 where it is not whole. */
static size_t redis_answer_size(const struct bpfmap_session *session)
{
    const char *from = (const char *)session->in + session->in_begin;
    size_t there = session->in_end - session->in_begin, size;
    const char *newline = (const char *)memchr(from, '\n', there);
    if (!newline)
        return 0;
    size = (size_t)(newline - from) + 1;
    if (*from == '$' && from[1] != '-')
        size += strtoul(from + 1, NULL, 10) + 2;
    return size <= there ? size : 0;
}

/* Waits for an answer. Its first line is the text, which ends where the client reads on. */
static const char *redis_receive(struct bpfmap_client *client)
{
    struct bpfmap_session *session = &client->session;
    size_t size;
    const char *answer;
    while ((size = redis_answer_size(session)) == 0)
        NEED(bpfmap_read_more(client) == BPFMAP_OK, "Redis ended: %s", bpfmap_explain(client, session->status));
    answer = (const char *)session->in + session->in_begin;
    NEED(*answer != '-', "Redis answered %.*s", (int)size, answer);
    session->in_begin += size;
    return answer;
}

static void redis_send_line(struct bpfmap_client *client, const char *first, uint64_t key, const char *last)
{
    char bytes[KEY_LENGTH];
    write_key(bytes, key);
    redis_send(client, first, strlen(first));
    redis_send(client, bytes, KEY_LENGTH);
    redis_send(client, last, strlen(last));
}

static void redis_connect(struct bpfmap_client *client)
{
    int error;
    memset(client, 0, sizeof *client);
    client->timeout = TIMEOUT;
    client->socket = bpfmap_find_host(client, "127.0.0.1", port, &error);
    client->is_open = client->socket >= 0;
    client->process = getpid();
    NEED(client->is_open, "no connection to Redis: %s", strerror(error));
}

/* Sets all keys, and loads the script. */
static void redis_prepare(struct bpfmap_client *client)
{
    char loads[300], name[SHA_LENGTH + 1] = {0};
    const char *answer, *value = operation->adds ? "\r\n$1\r\n0\r\n" : "\r\n$8\r\n10000000\r\n";
    for (uint64_t key = 0; key < KEYS; key++) {
        redis_send_line(client, "*3\r\n$3\r\nSET\r\n$8\r\n", key, value);
        redis_receive(client);
    }
    sprintf(loads, "*3\r\n$6\r\nSCRIPT\r\n$4\r\nLOAD\r\n$%zu\r\n%s\r\n", sizeof script - 1, script);
    redis_send(client, loads, strlen(loads));
    answer = redis_receive(client);
    NEED(strncmp(answer, "$40\r\n", 5) == 0, "Redis gives no name of %d letters to a script", SHA_LENGTH);
    memcpy(name, answer + 5, SHA_LENGTH);
    snprintf(before, sizeof before, operation->before, name);
}

static uint64_t redis_value(struct bpfmap_client *client, uint64_t key)
{
    redis_send_line(client, "*2\r\n$3\r\nGET\r\n$8\r\n", key, "\r\n");
    return strtoull(strchr(redis_receive(client), '\n') + 1, NULL, 10);
}

/* ---- requests and answers of mapd */

static void need(struct bpfmap_client *client, enum bpfmap_status status)
{
    NEED(status == BPFMAP_OK, "%s", bpfmap_explain(client, status));
}

static void map_send(struct bpfmap_client *client, uint64_t key)
{
    static const uint8_t one[8] = {1};
    char bytes[KEY_LENGTH];
    struct bpfmap_request request = {.call = operation->call, .value = {one, sizeof one}, .program = &program};
    write_key(bytes, key);
    request.key = bpfmap_bytes(bytes, KEY_LENGTH);
    need(client, bpfmap_send(client, &request));
}

static void map_receive(struct bpfmap_client *client)
{
    struct bpfmap_reply reply;
    need(client, bpfmap_receive(client, &reply));
    NEED(reply.value_length == 8, "an answer of %zu bytes", reply.value_length);
}

/* Puts all keys, and makes the sum: each connection registers it with its first Merge. */
static void map_prepare(struct bpfmap_client *client)
{
    static const uint8_t none[8];
    static const uint8_t sum[] = {0x79, 0x20, 0, 0, 0, 0, 0, 0, 0x79, 0x39, 0, 0, 0, 0, 0, 0, 0x0f, 0x90, 0, 0, 0, 0, 0, 0,
                                  0x7b, 0x04, 0, 0, 0, 0, 0, 0, 0xb7, 0x00, 0, 0, 8, 0, 0, 0, 0x95, 0x00, 0, 0, 0, 0, 0, 0};
    struct bpfmap_reply reply;
    program = bpfmap_program_of(bpfmap_windows(64, 8, 8, 8), bpfmap_bytes(sum, sizeof sum));
    for (uint64_t key = 0; key < KEYS; key++) {
        char bytes[KEY_LENGTH];
        write_key(bytes, key);
        need(client, bpfmap_put(client, bpfmap_bytes(bytes, KEY_LENGTH), bpfmap_bytes(none, sizeof none), &reply));
    }
}

static uint64_t map_value(struct bpfmap_client *client, uint64_t key)
{
    struct bpfmap_reply reply;
    char bytes[KEY_LENGTH];
    write_key(bytes, key);
    need(client, bpfmap_get(client, bpfmap_bytes(bytes, KEY_LENGTH), &reply));
    return bpfmap_load64(reply.value);
}

/* ---- the load */

static void open_line(struct bpfmap_client *client)
{
    if (is_redis)
        redis_connect(client);
    else
        need(client, bpfmap_connect(client, "127.0.0.1", port, TIMEOUT));
}

static void send_one(struct line *line)
{
    uint64_t key = line->key++;
    if (is_redis)
        redis_send_line(&line->client, before, key, operation->behind);
    else
        map_send(&line->client, key);
}

static void receive_one(struct line *line)
{
    if (is_redis)
        redis_receive(&line->client);
    else
        map_receive(&line->client);
    line->answered++;
}

/* Keeps so many requests on their way until the time is over, and receives all answers. */
static void *run(void *given)
{
    struct line *line = (struct line *)given;
    uint64_t sent = 0;
    open_line(&line->client);
    pthread_barrier_wait(&ready);
    for (; sent < (uint64_t)depth; sent++)
        send_one(line);
    while (line->answered < sent) {
        receive_one(line);
        if (sent < MOST_REQUESTS && !__atomic_load_n(&is_over, __ATOMIC_RELAXED)) {
            send_one(line);
            sent++;
        }
    }
    bpfmap_close(&line->client);
    return NULL;
}

static uint64_t nanoseconds(void)
{
    struct timespec now;
    clock_gettime(CLOCK_MONOTONIC, &now);
    return (uint64_t)now.tv_sec * 1000000000 + (uint64_t)now.tv_nsec;
}

/* The processor time that a process has had, of its own and of the system for it. */
static uint64_t processor_nanoseconds(const char *process)
{
    char name[64], text[1024];
    unsigned long own, systems;
    FILE *file;
    size_t length;
    const char *behind_name;
    snprintf(name, sizeof name, "/proc/%s/stat", process);
    file = fopen(name, "r");
    NEED(file, "there is no process %s", process);
    length = fread(text, 1, sizeof text - 1, file);
    fclose(file);
    text[length] = 0;
    behind_name = strrchr(text, ')');
    NEED(behind_name && sscanf(behind_name + 1, " %*c %*d %*d %*d %*d %*d %*u %*u %*u %*u %*u %lu %lu", &own, &systems) == 2,
         "%s has other fields", name);
    return (uint64_t)(own + systems) * (1000000000 / (uint64_t)sysconf(_SC_CLK_TCK));
}

/* Whether all that the requests added is there. */
static int is_sum(struct bpfmap_client *client, uint64_t wanted)
{
    uint64_t sum = 0;
    for (uint64_t key = 0; key < KEYS; key++)
        sum += is_redis ? redis_value(client, key) : map_value(client, key);
    return sum == wanted;
}

static const struct operation *find_operation(const char *name)
{
    const struct operation *found = is_redis ? redis_operations : map_operations;
    while (found->name && strcmp(found->name, name) != 0)
        found++;
    return found->name ? found : NULL;
}

/* Loads the server over so many connections. The answers of all. */
static uint64_t load(struct line *lines, int connections, long milliseconds, const char *process)
{
    struct timespec time = {.tv_sec = milliseconds / 1000, .tv_nsec = milliseconds % 1000 * 1000000};
    uint64_t answered = 0, begun, had;
    pthread_barrier_init(&ready, NULL, (unsigned)connections + 1);
    for (int i = 0; i < connections; i++) {
        lines[i].key = (uint64_t)(i * (KEYS / connections));
        NEED(pthread_create(&lines[i].thread, NULL, run, &lines[i]) == 0, "no thread");
    }
    pthread_barrier_wait(&ready);
    had = processor_nanoseconds(process);
    begun = nanoseconds();
    nanosleep(&time, NULL);
    __atomic_store_n(&is_over, 1, __ATOMIC_RELAXED);
    for (int i = 0; i < connections; i++) {
        pthread_join(lines[i].thread, NULL);
        answered += lines[i].answered;
    }
    printf("%llu %llu", (unsigned long long)answered, (unsigned long long)(nanoseconds() - begun));
    printf(" %llu\n", (unsigned long long)(processor_nanoseconds(process) - had));
    return answered;
}

int main(int words, char **word)
{
    static struct line lines[MOST_CONNECTIONS];
    static struct bpfmap_client client;
    uint64_t answered;
    int connections = words == 8 ? atoi(word[4]) : 0;
    is_redis = words == 8 && strcmp(word[1], "redis") == 0;
    operation = words == 8 ? find_operation(word[3]) : NULL;
    depth = words == 8 ? atoi(word[5]) : 0;
    if (!operation || connections < 1 || connections > MOST_CONNECTIONS || depth < 1 || depth > BPFMAP_DEPTH) {
        fprintf(stderr, "load mapd|redis PORT OPERATION CONNECTIONS DEPTH MILLISECONDS PROCESS\n");
        return 2;
    }
    port = word[2];
    alarm((unsigned)(atol(word[6]) / 1000) + 60);
    open_line(&client);
    if (is_redis)
        redis_prepare(&client);
    else
        map_prepare(&client);
    bpfmap_close(&client);
    answered = load(lines, connections, atol(word[6]), word[7]);
    open_line(&client);
    NEED(!operation->adds || is_sum(&client, answered), "%s: the sum is not %llu", operation->name, (unsigned long long)answered);
    bpfmap_close(&client);
    return 0;
}
