/* Loads memcached on loopback by its text protocol, as loading.h says.
   memcached_load PORT get|mget|set|incr|cas CONNECTIONS DEPTH MILLISECONDS PROCESS KEYS
   prints how many requests were answered, in how many nanoseconds, how many nanoseconds of processor time the server's process had
   meanwhile, and how many tries were lost. `mget` asks for all keys of a connection by one `get`, since memcached sends the answer to each
   `get` by itself. `cas` adds 1 to a key as a client has to do it: it reads by `gets`, adds, and stores by `cas`, and begins again if
   another client was first, until the sum is stored; only then is it answered. A connection has as many updates on their way as it is deep,
   and they don't know of each other, as if each had another caller. It reads for all that aren't stored yet, then stores for them. What incr
   and cas added is counted at the end.
   memcached_load PORT entries 1 1 0 PROCESS ENTRIES
   prints how many bytes of memory an entry of 16 and 100 bytes takes, by how the server grows between this many entries and twice as many. */
#define CLIENT "memcached_load"
#include "loading.h"

enum { REQUEST = 200, REPLY = 100, ENTRY_VALUE = 100, AT_ONCE = 100 };

struct update {
    uint32_t key;
    uint64_t value, unique; /* what `gets` told */
};

/* What a connection asked for. */
struct batch {
    struct update updates[MOST_DEPTH]; /* those that aren't stored; requests are sent in this order */
    unsigned count, done;              /* how many, and how many of them have their reply */
    unsigned again;                    /* how many of these lost; they are moved to the front */
    unsigned told;                     /* how many lines of the next value are there */
    int is_storing;
    size_t length;
    char text[MOST_DEPTH * REPLY]; /* a line that isn't whole, and what is read behind it */
};

static int is_get, is_many, is_set, is_incr, is_cas;
static uint64_t lost;
static struct batch *batches;

static int begins(const char *text, const char *with) { return strncmp(text, with, strlen(with)) == 0; }

static int is_error(const char *reply)
{
    return begins(reply, "ERROR") || begins(reply, "CLIENT_ERROR") || begins(reply, "SERVER_ERROR");
}

/* Writes the next request for an update; its length. */
static int write_request(char *request, const struct update *update, int is_storing)
{
    char digits[24];
    int length;
    if (is_get)
        return sprintf(request, "get key:%08u\r\n", update->key);
    if (is_set)
        return sprintf(request, "set key:%08u 0 0 8\r\n10000000\r\n", update->key);
    if (is_incr)
        return sprintf(request, "incr sum:%08u 1\r\n", update->key);
    if (!is_storing)
        return sprintf(request, "gets sum:%08u\r\n", update->key);
    length = sprintf(digits, "%llu", (unsigned long long)update->value + 1);
    return sprintf(request, "cas sum:%08u 0 0 %d %llu\r\n%s\r\n", update->key, length, (unsigned long long)update->unique, digits);
}

/* Writes one request for the keys of all; its length. */
static int write_many(char *request, const struct batch *batch)
{
    int length = sprintf(request, "get");
    for (unsigned i = 0; i < batch->count; i++)
        length += sprintf(request + length, " key:%08u", batch->updates[i].key);
    return length + sprintf(request + length, "\r\n");
}

static void send_batch(struct line *line, struct batch *batch)
{
    static char requests[MOST_DEPTH * REQUEST];
    int length = is_many ? write_many(requests, batch) : 0;
    for (unsigned i = 0; i < batch->count && !is_many; i++)
        length += write_request(requests + length, &batch->updates[i], batch->is_storing);
    line->lines_left = batch->count * (is_get || (is_cas && !batch->is_storing) ? 3 : 1);
    if (is_many)
        line->lines_left = 2 * batch->count + 1;
    batch->done = batch->again = batch->told = 0;
    send_all(line->socket, requests, (size_t)length);
}

static void speak(struct line *line)
{
    struct batch *batch = &batches[line - lines];
    batch->count = (unsigned)depth;
    batch->is_storing = 0;
    for (int i = 0; i < depth; i++)
        batch->updates[i].key = key_of(line->key++);
    send_batch(line, batch);
}

/* One of the three lines of a value: its name, its bytes, and the end. */
static void take_value(struct batch *batch, const char *text)
{
    struct update *update = &batch->updates[batch->done];
    unsigned place = batch->told++;
    if ((place == 0 && !begins(text, "VALUE ")) || (place == 2 && !begins(text, "END")))
        fail("a value is answered %.40s", text);
    if (place == 0 && is_cas)
        update->unique = strtoull(strrchr(text, ' ') + 1, NULL, 10);
    if (place == 1 && is_cas)
        update->value = strtoull(text, NULL, 10);
    if (place == 2) {
        batch->done++;
        batch->told = 0;
    }
}

/* One of the lines of many values: of each its name and its bytes, and the end. */
static void take_of_many(struct batch *batch, const char *text)
{
    if (batch->told % 2 == 0 && !begins(text, batch->told < 2 * batch->count ? "VALUE " : "END"))
        fail("values are answered %.40s", text);
    batch->told++;
}

/* A line of a reply, without its newline. */
static void take(struct batch *batch, const char *text)
{
    if (is_error(text))
        fail("the server answered %s", text);
    if (is_many) {
        take_of_many(batch, text);
        return;
    }
    if (is_get || (is_cas && !batch->is_storing)) {
        take_value(batch, text);
        return;
    }
    if (is_incr ? *text < '0' || *text > '9' : !begins(text, "STORED") && !(is_cas && begins(text, "EXISTS")))
        fail("%s is answered %s", operation, text);
    if (begins(text, "EXISTS")) {
        batch->updates[batch->again++] = batch->updates[batch->done];
        lost++;
    }
    batch->done++;
}

/* After all replies of a step: whether nothing is left to do. Else it takes the next step. */
static int is_finished(struct line *line, struct batch *batch)
{
    if (!is_cas)
        return 1;
    if (batch->is_storing)
        batch->count = batch->again;
    batch->is_storing = !batch->is_storing;
    if (batch->count == 0)
        return 1;
    send_batch(line, batch);
    return 0;
}

static int is_answered(struct line *line)
{
    struct batch *batch = &batches[line - lines];
    char *from = batch->text, *newline;
    ssize_t got = recv(line->socket, from + batch->length, sizeof batch->text - batch->length, 0);
    if (got <= 0)
        fail("the server ended a connection, or a reply is too long");
    batch->length += (size_t)got;
    while ((newline = memchr(from, '\n', batch->length))) {
        *newline = 0;
        take(batch, from);
        line->lines_left--;
        batch->length -= (size_t)(newline + 1 - from);
        from = newline + 1;
    }
    memmove(batch->text, from, batch->length);
    return line->lines_left == 0 && is_finished(line, batch);
}

/* Sets all keys that are read, and those that are counted to 0. */
static void prepare(int to)
{
    char request[REQUEST];
    for (uint32_t key = 0; key < keys; key++) {
        int length = sprintf(request, "set key:%08u 0 0 8\r\n10000000\r\n", key);
        ask(to, request, (size_t)length, 1);
        length = sprintf(request, "set sum:%08u 0 0 1\r\n0\r\n", key);
        ask(to, request, (size_t)length, 1);
    }
}

/* What all keys that are counted come to. */
static uint64_t counted(int to)
{
    uint64_t all = 0;
    for (uint32_t key = 0; key < keys; key++) {
        char request[REQUEST];
        int length = sprintf(request, "get sum:%08u\r\n", key);
        const char *reply = ask(to, request, (size_t)length, 3);
        all += strtoull(strchr(reply, '\n') + 1, NULL, 10);
    }
    return all;
}

/* Sets entries whose numbers begin here, some at once. */
static void fill(int to, long first, long count)
{
    static char requests[AT_ONCE * REQUEST];
    char value[ENTRY_VALUE + 1], reply[AT_ONCE * 8];
    memset(value, 'v', ENTRY_VALUE);
    value[ENTRY_VALUE] = 0;
    for (long done = 0; done < count; done += AT_ONCE) {
        int length = 0;
        for (long number = first + done; number < first + count && number < first + done + AT_ONCE; number++)
            length += sprintf(requests + length, "set %016ld 0 0 %d\r\n%s\r\n", number, ENTRY_VALUE, value);
        send_all(to, requests, (size_t)length);
        length = (int)(count - done < AT_ONCE ? count - done : AT_ONCE) * 8;
        if (recv(to, reply, (size_t)length, MSG_WAITALL) != length || memcmp(reply + length - 8, "STORED\r\n", 8) != 0)
            fail("an entry isn't stored");
    }
}

static void tell_entries(int to, long entries)
{
    long before;
    fill(to, 0, entries);
    sleep(1);
    before = resident_bytes();
    fill(to, entries, entries);
    sleep(1);
    printf("%ld\n", (resident_bytes() - before) / entries);
}

int main(int words, char **word)
{
    int is_entries = words == 8 && strcmp(word[2], "entries") == 0, poll = epoll_create1(0), own;
    int connections = words == 8 ? read_words(word, is_entries ? "1" : word[7]) : 0;
    uint64_t answered;
    is_get = connections && strcmp(operation, "get") == 0, is_set = connections && strcmp(operation, "set") == 0;
    is_incr = connections && strcmp(operation, "incr") == 0, is_cas = connections && strcmp(operation, "cas") == 0;
    is_many = connections && strcmp(operation, "mget") == 0;
    if (!is_get && !is_many && !is_set && !is_incr && !is_cas && !(is_entries && atol(word[7]) > 0)) {
        fprintf(stderr, "memcached_load PORT get|mget|set|incr|cas|entries CONNECTIONS DEPTH MILLISECONDS PROCESS KEYS|ENTRIES\n");
        return 2;
    }
    own = connected();
    if (is_entries) {
        tell_entries(own, atol(word[7]));
        return 0;
    }
    batches = calloc((size_t)connections, sizeof *batches);
    if (!batches)
        fail("no memory");
    prepare(own);
    open_lines(poll, connections, "version\r\n");
    answered = load(poll, connections, 0);
    lost = 0;
    answered += timed(poll, connections, word[5]);
    printf(" %llu\n", (unsigned long long)lost);
    if ((is_incr || is_cas) && counted(own) != answered)
        fail("%s: the sum is not %llu", operation, (unsigned long long)answered);
    return 0;
}
