/* Loads a server that speaks RESP2 on loopback, as loading.h says.
   redis_load PORT get|set|incr|mset|evalsha|fcall CONNECTIONS DEPTH MILLISECONDS PROCESS bpf|lua|none [KEYS]
   prints how many requests were answered, in how many nanoseconds, and how many nanoseconds of processor time the server's process had
   meanwhile. The language is that of evalsha's script; fcall needs Lua. There are 1,000 keys, if KEYS doesn't say how many. What INCR and
   the functions added is counted at the end, but for `none`, which is echo.c.
   redis_load PORT memory CONNECTIONS 1 0 PROCESS bpf|lua
   prints by how many bytes the server's memory grew with so many connections, each of which asked once. */
#define CLIENT "redis_load"
#include "loading.h"

enum { REQUEST = 700, PIECE = 1 << 16, MSET_KEYS = 10 };

static const char sum_in_bpf[] = "#!bpf merge integer 64 8 8 8\nldd r0, [r2+0]\nldd r9, [r3+0]\nadd64 r0, r9\nstxd [r4+0], r0\n"
                                 "mov64 r0, 8\nexit\n";
static const char sum_in_lua[] = "local sum = (redis.call('GET', KEYS[1]) or 0) + ARGV[1]; redis.call('SET', KEYS[1], sum); return sum";
static const char sum_in_library[] = "#!lua name=sums\nredis.register_function('sum', function(keys, args) "
                                     "local sum = (redis.call('GET', keys[1]) or 0) + args[1]; redis.call('SET', keys[1], sum); "
                                     "return sum end)\n";

static int is_lua, is_echo;
static char script_name[41];
static char piece[PIECE];

static int is_error(const char *reply) { return *reply == '-'; }

/* Writes the request on a key; its length. */
static int write_request(char *request, uint32_t number)
{
    int length;
    number = key_of(number);
    if (strcmp(operation, "get") == 0)
        return sprintf(request, "*2\r\n$3\r\nGET\r\n$12\r\nkey:%08u\r\n", number);
    if (strcmp(operation, "set") == 0)
        return sprintf(request, "*3\r\n$3\r\nSET\r\n$12\r\nkey:%08u\r\n$8\r\n10000000\r\n", number);
    if (strcmp(operation, "incr") == 0)
        return sprintf(request, "*2\r\n$4\r\nINCR\r\n$12\r\nsum:%08u\r\n", number);
    if (strcmp(operation, "mset") == 0) {
        length = sprintf(request, "*%d\r\n$4\r\nMSET\r\n", 1 + 2 * MSET_KEYS);
        for (int i = 0; i < MSET_KEYS; i++)
            length += sprintf(request + length, "$12\r\nkey:%08u\r\n$8\r\n10000000\r\n", (number + 7 * (uint32_t)i) % keys);
        return length;
    }
    if (strcmp(operation, "fcall") == 0)
        return sprintf(request, "*5\r\n$5\r\nFCALL\r\n$3\r\nsum\r\n$1\r\n1\r\n$12\r\nsum:%08u\r\n$1\r\n1\r\n", number);
    return sprintf(request, "*5\r\n$7\r\nEVALSHA\r\n$40\r\n%s\r\n$1\r\n1\r\n$12\r\nsum:%08u\r\n$1\r\n1\r\n", script_name, number);
}

static void speak(struct line *line)
{
    static char requests[MOST_DEPTH * REQUEST];
    int length = 0;
    for (int i = 0; i < depth; i++)
        length += write_request(requests + length, line->key++);
    line->lines_left = (unsigned)depth * (strcmp(operation, "get") == 0 ? 2 : 1);
    send_all(line->socket, requests, (size_t)length);
}

/* No reply here has a newline in its bytes. */
static int is_answered(struct line *line)
{
    ssize_t got = recv(line->socket, piece, sizeof piece, 0);
    if (got <= 0)
        fail("the server ended a connection");
    for (ssize_t i = 0; i < got; i++) {
        if (!line->is_in_line && piece[i] == '-')
            fail("the server answered %.*s", (int)(got - i), piece + i);
        line->is_in_line = piece[i] != '\n';
        line->lines_left -= piece[i] == '\n';
    }
    return line->lines_left == 0;
}

/* Loads the script, or the library. */
static void load_script(int to)
{
    const char *script = is_lua ? sum_in_lua : sum_in_bpf;
    char loads[400];
    int length;
    if (strcmp(operation, "evalsha") == 0) {
        length = sprintf(loads, "*3\r\n$6\r\nSCRIPT\r\n$4\r\nLOAD\r\n$%zu\r\n%s\r\n", strlen(script), script);
        memcpy(script_name, ask(to, loads, (size_t)length, 2) + 5, 40);
    }
    if (strcmp(operation, "fcall") == 0) {
        length = sprintf(loads, "*4\r\n$8\r\nFUNCTION\r\n$4\r\nLOAD\r\n$7\r\nREPLACE\r\n$%zu\r\n%s\r\n", strlen(sum_in_library),
                         sum_in_library);
        ask(to, loads, (size_t)length, 2);
    }
}

/* Sets all keys that are read, removes all that are counted, and loads the script. */
static void prepare(int to)
{
    const char *wanted = operation;
    char request[REQUEST];
    int length;
    operation = "set";
    for (uint32_t key = 0; key < keys; key++) {
        length = write_request(request, key);
        ask(to, request, (size_t)length, 1);
        length = sprintf(request, "*2\r\n$3\r\nDEL\r\n$12\r\nsum:%08u\r\n", key);
        ask(to, request, (size_t)length, 1);
    }
    operation = wanted;
    load_script(to);
}

/* What all keys that are counted come to. */
static uint64_t counted(int to)
{
    uint64_t all = 0;
    int is_binary = strcmp(operation, "evalsha") == 0 && !is_lua;
    for (unsigned key = 0; key < keys; key++) {
        char request[100];
        const char *value;
        int length = sprintf(request, "*2\r\n$6\r\nEXISTS\r\n$12\r\nsum:%08u\r\n", key);
        if (strcmp(ask(to, request, (size_t)length, 1), ":0\r\n") == 0)
            continue;
        /* an addition of nothing gives the number, whatever its bytes are */
        if (is_binary) {
            length = sprintf(request, "*5\r\n$7\r\nEVALSHA\r\n$40\r\n%s\r\n$1\r\n1\r\n$12\r\nsum:%08u\r\n$1\r\n0\r\n", script_name, key);
            all += strtoull(ask(to, request, (size_t)length, 1) + 1, NULL, 10);
            continue;
        }
        length = sprintf(request, "*2\r\n$3\r\nGET\r\n$12\r\nsum:%08u\r\n", key);
        value = ask(to, request, (size_t)length, 2);
        all += strtoull(strchr(value, '\n') + 1, NULL, 10);
    }
    return all;
}

/* Whether the requests add to the keys that are counted. */
static int is_adding(void)
{
    return !is_echo && (strcmp(operation, "incr") == 0 || strcmp(operation, "evalsha") == 0 || strcmp(operation, "fcall") == 0);
}

/* How many bytes the server's memory grows by with these connections, when each has asked once and is silent again. */
static void tell_memory(int poll, int connections)
{
    long before = resident_bytes();
    operation = "get";
    open_lines(poll, connections, "PING\r\n");
    load(poll, connections, 0);
    printf("%ld\n", resident_bytes() - before);
}

int main(int words, char **word)
{
    int connections = words == 8 || words == 9 ? read_words(word, words == 9 ? word[8] : "1000") : 0, poll = epoll_create1(0), own;
    uint64_t answered;
    if (connections == 0) {
        fprintf(stderr, "redis_load PORT get|set|incr|mset|evalsha|fcall|memory CONNECTIONS DEPTH MILLISECONDS PROCESS bpf|lua|none [KEYS]\n");
        return 2;
    }
    is_lua = strcmp(word[7], "lua") == 0, is_echo = strcmp(word[7], "none") == 0;
    own = connected();
    prepare(own);
    if (strcmp(operation, "memory") == 0) {
        tell_memory(poll, connections);
        return 0;
    }
    open_lines(poll, connections, "PING\r\n");
    answered = load(poll, connections, 0);
    answered += timed(poll, connections, word[5]);
    printf("\n");
    if (is_adding() && counted(own) != answered)
        fail("%s: the sum is not %llu", operation, (unsigned long long)answered);
    return 0;
}
