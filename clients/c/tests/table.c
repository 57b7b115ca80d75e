/* Runs the rows of tests/requests.txt, which says how they read, by each version of the protocol, against a fresh server each time:
 * table FILE */
#include "../bpfmap_client.h"
#include "server.h"

enum { LINE_BYTES = 2048, MOST_WORDS = 64, MOST_BYTES = 65536, TEXT_BYTES = 2 * MOST_BYTES };

/* A call's name, and its arguments in the row's order, as bpfmap_fields has them. */
struct call_name {
    const char *name;
    enum bpfmap_call call;
    const char *arguments;
};

static const struct call_name call_names[] = {
    {"get", BPFMAP_GET, "k"},
    {"put", BPFMAP_PUT, "kv"},
    {"put_if_absent", BPFMAP_PUT_IF_ABSENT, "kv"},
    {"remove", BPFMAP_REMOVE, "k"},
    {"remove_if", BPFMAP_REMOVE_IF, "ke"},
    {"replace", BPFMAP_REPLACE, "kv"},
    {"replace_if", BPFMAP_REPLACE_IF, "kev"},
    {"compute", BPFMAP_COMPUTE, "kpa"},
    {"compute_if_absent", BPFMAP_COMPUTE_IF_ABSENT, "kpa"},
    {"compute_if_present", BPFMAP_COMPUTE_IF_PRESENT, "kpa"},
    {"merge", BPFMAP_MERGE, "kvp"},
    {"search", BPFMAP_SEARCH, "pat"},
    {"for_each", BPFMAP_FOR_EACH, "pat"},
    {"replace_all", BPFMAP_REPLACE_ALL, "pa"},
    {"count", BPFMAP_COUNT, ""},
};

struct words {
    size_t count;
    char *word[MOST_WORDS];
};

/* Bytes that a row's arguments are kept in. */
static uint8_t storage[MOST_BYTES];
static size_t stored;

/* The program that a row registers, or the number that it calls. */
static struct bpfmap_program program;

static char wanted[TEXT_BYTES], came[TEXT_BYTES];

static struct words split(char *text)
{
    struct words words = {.count = 0};
    for (char *word = strtok(text, " "); word; word = strtok(NULL, " ")) {
        CHECK(words.count < MOST_WORDS, "a row has too many words");
        words.word[words.count++] = word;
    }
    return words;
}

static unsigned digit(char letter)
{
    const char *digits = "0123456789abcdef", *found = strchr(digits, letter);
    CHECK(letter && found, "'%c' is no hex digit", letter);
    return (unsigned)(found - digits);
}

/* Stores the bytes of a word behind those that are there. */
static struct bpfmap_span bytes_of(const char *word)
{
    const char *star = strchr(word, '*');
    size_t digits = strcmp(word, "-") == 0 ? 0 : star ? (size_t)(star - word) : strlen(word);
    size_t times = star ? strtoul(star + 1, NULL, 10) : 1;
    uint8_t *first = storage + stored;
    CHECK(digits % 2 == 0 && stored + digits / 2 * times <= MOST_BYTES, "'%.60s' is no text of bytes", word);
    for (size_t i = 0; i < digits / 2 * times; i++)
        storage[stored++] = (uint8_t)(digit(word[2 * i % digits]) << 4 | digit(word[(2 * i + 1) % digits]));
    return bpfmap_bytes(first, (size_t)(storage + stored - first));
}

static struct bpfmap_span joined(char **word, size_t count)
{
    uint8_t *first = storage + stored;
    for (size_t i = 0; i < count; i++)
        bytes_of(word[i]);
    return bpfmap_bytes(first, (size_t)(storage + stored - first));
}

/* Writes bytes in hex behind a text; no bytes are written as this text. */
static void append_hex(char *text, const void *bytes, size_t length, const char *empty)
{
    char *to = text + strlen(text);
    if (length == 0)
        strcpy(to, empty);
    for (size_t i = 0; i < length; i++)
        sprintf(to + 2 * i, "%02x", ((const uint8_t *)bytes)[i]);
}

static void append_number(char *text, uint64_t number)
{
    sprintf(text + strlen(text), " %llu", (unsigned long long)number);
}

static void append_counts(char *text, const struct bpfmap_reply *reply)
{
    strcat(text, *text ? " counts" : "counts");
    append_number(text, reply->scanned);
    append_number(text, reply->given);
    append_number(text, reply->unfit);
}

/* Writes what came of a call, as the row's answers are written, but with all bytes written out. */
static void append_reply(char *text, enum bpfmap_status status, const struct bpfmap_reply *reply)
{
    static const char *const windows[] = {"", "unfit key", "unfit old", "unfit arg"};
    switch (reply->kind) {
    case BPFMAP_NO_ANSWER: strcat(text, "no answer"); break;
    case BPFMAP_WELCOME: strcat(text, "welcome"); break;
    case BPFMAP_REGISTERED: strcat(text, "program"); append_number(text, reply->number); break;
    case BPFMAP_VALUE: strcat(text, "value "); append_hex(text, reply->value, reply->value_length, "-"); break;
    case BPFMAP_NOTHING: strcat(text, "nothing"); break;
    case BPFMAP_DONE: strcat(text, status == BPFMAP_OK ? "true" : "false"); break;
    case BPFMAP_REFUSAL:
        strcpy(text, "refused");
        append_number(text, reply->refusal.number);
        append_number(text, reply->refusal.place);
        break;
    case BPFMAP_WINDOW: strcat(text, windows[reply->window]); break;
    case BPFMAP_COUNTS: append_counts(text, reply); break;
    case BPFMAP_ITEM:
        strcat(text, " ");
        append_hex(text, reply->key, reply->key_length, "-");
        strcat(text, "=");
        append_hex(text, reply->value, reply->value_length, "-");
    }
}

/* The status that belongs to a reply of this kind; that of BPFMAP_DONE is its answer. */
static enum bpfmap_status status_of(const struct bpfmap_reply *reply)
{
    int is_put = reply->call == BPFMAP_PUT || reply->call == BPFMAP_PUT_IF_ABSENT;
    switch (reply->kind) {
    case BPFMAP_VALUE: return reply->call == BPFMAP_PUT_IF_ABSENT ? BPFMAP_UNCHANGED : BPFMAP_OK;
    case BPFMAP_NOTHING: return is_put ? BPFMAP_OK : BPFMAP_ABSENT;
    case BPFMAP_WINDOW: return BPFMAP_UNFIT;
    case BPFMAP_REFUSAL: return BPFMAP_REFUSED;
    case BPFMAP_COUNTS: return reply->call == BPFMAP_SEARCH || reply->call == BPFMAP_FOR_EACH ? BPFMAP_END : BPFMAP_OK;
    default: return BPFMAP_OK;
    }
}

/* Writes what came of a walk that has begun. */
static void append_walk(char *text, struct bpfmap_client *client, enum bpfmap_status status)
{
    struct bpfmap_reply reply = {.kind = BPFMAP_REFUSAL, .refusal = client->session.refusal};
    strcpy(text, "items");
    if (status == BPFMAP_REFUSED) {
        append_reply(text, status, &reply);
        return;
    }
    CHECK_STATUS(client, BPFMAP_OK, status);
    while ((status = bpfmap_receive(client, &reply)) == BPFMAP_OK)
        append_reply(text, status, &reply);
    CHECK(status == status_of(&reply), "a walk ends with status %d, %s", (int)status, bpfmap_explain(client, status));
    append_reply(text, status, &reply);
}

/* Whether all bytes of a reply that have no answer are 0. */
static int is_clear(const struct bpfmap_reply *reply)
{
    for (size_t i = reply->value_length; i < sizeof reply->value; i++)
        if (reply->value[i] != 0)
            return 0;
    for (size_t i = reply->key_length; i < sizeof reply->key; i++)
        if (reply->key[i] != 0)
            return 0;
    return 1;
}

/* Makes a request by the function of its name, and writes what came of it. */
static void make(struct bpfmap_client *client, const struct bpfmap_request *made, char *text)
{
    struct bpfmap_reply reply;
    enum bpfmap_status status = BPFMAP_NOT_ASKED;
    struct bpfmap_span key = made->key, value = made->value, expected = made->expected, arg = made->arg;
    const struct bpfmap_program *program = made->program;
    memset(&reply, 0xaa, sizeof reply);
    switch (made->call) {
    case BPFMAP_HELLO: break;
    case BPFMAP_REGISTER: status = bpfmap_register(client, program, &reply); break;
    case BPFMAP_GET: status = bpfmap_get(client, key, &reply); break;
    case BPFMAP_PUT: status = bpfmap_put(client, key, value, &reply); break;
    case BPFMAP_PUT_IF_ABSENT: status = bpfmap_put_if_absent(client, key, value, &reply); break;
    case BPFMAP_REMOVE: status = bpfmap_remove(client, key, &reply); break;
    case BPFMAP_REMOVE_IF: status = bpfmap_remove_if(client, key, expected, &reply); break;
    case BPFMAP_REPLACE: status = bpfmap_replace(client, key, value, &reply); break;
    case BPFMAP_REPLACE_IF: status = bpfmap_replace_if(client, key, expected, value, &reply); break;
    case BPFMAP_COMPUTE: status = bpfmap_compute(client, key, program, arg, &reply); break;
    case BPFMAP_COMPUTE_IF_ABSENT: status = bpfmap_compute_if_absent(client, key, program, arg, &reply); break;
    case BPFMAP_COMPUTE_IF_PRESENT: status = bpfmap_compute_if_present(client, key, program, arg, &reply); break;
    case BPFMAP_MERGE: status = bpfmap_merge(client, key, value, program, &reply); break;
    case BPFMAP_SEARCH: append_walk(text, client, bpfmap_begin_search(client, program, arg, made->threshold)); return;
    case BPFMAP_FOR_EACH: append_walk(text, client, bpfmap_begin_for_each(client, program, arg, made->threshold)); return;
    case BPFMAP_REPLACE_ALL: status = bpfmap_replace_all(client, program, arg, &reply); break;
    case BPFMAP_COUNT: status = bpfmap_count(client, &reply); break;
    }
    CHECK(status == status_of(&reply) || (reply.kind == BPFMAP_DONE && status == BPFMAP_UNCHANGED), "status %d, %s",
          (int)status, bpfmap_explain(client, status));
    CHECK(is_clear(&reply), "a reply has bytes that nobody answered");
    append_reply(text, status, &reply);
}

static uint16_t size_of(const char *word)
{
    return (uint16_t)strtoul(word, NULL, 10);
}

static void read_argument(const struct bpfmap_client *client, struct bpfmap_request *request, char argument, const char *word)
{
    switch (argument) {
    case 'k': request->key = bytes_of(word); break;
    case 'v': request->value = bytes_of(word); break;
    case 'e': request->expected = bytes_of(word); break;
    case 'a': request->arg = strcmp(word, "none") == 0 ? bpfmap_none() : bytes_of(word); break;
    case 'p': program = bpfmap_numbered(client, strtoull(word, NULL, 10)); break;
    default: request->threshold = strtoull(word, NULL, 10);
    }
}

static struct bpfmap_request request_of(const struct bpfmap_client *client, const struct words *words)
{
    struct bpfmap_request request = {.call = BPFMAP_REGISTER, .program = &program};
    const struct call_name *named = call_names, *end = call_names + sizeof call_names / sizeof *call_names;
    if (strcmp(words->word[0], "register") == 0) {
        char *const *word = words->word;
        CHECK(words->count >= 6, "a register has too few words");
        program = bpfmap_program_of(bpfmap_windows(size_of(word[1]), size_of(word[2]), size_of(word[3]), size_of(word[4])),
                                    joined((char **)word + 5, words->count - 5));
        return request;
    }
    while (named < end && strcmp(named->name, words->word[0]) != 0)
        named++;
    CHECK(named < end && words->count == 1 + strlen(named->arguments), "no call: %s", words->word[0]);
    request.call = named->call;
    for (size_t i = 1; i < words->count; i++)
        read_argument(client, &request, named->arguments[i - 1], words->word[i]);
    return request;
}

/* Writes what is wanted, with all bytes written out: those behind a = by themselves. */
static void write_wanted(const struct words *answer)
{
    *wanted = 0;
    for (size_t i = 0; i < answer->count; i++) {
        char *word = answer->word[i], *equals = strchr(word, '=');
        int is_bytes = equals || strchr(word, '*');
        if (i > 0)
            strcat(wanted, " ");
        if (equals) {
            struct bpfmap_span key;
            *equals = 0;
            key = bytes_of(word);
            append_hex(wanted, key.bytes, key.length, "-");
            strcat(wanted, "=");
            word = equals + 1;
        }
        if (is_bytes) {
            struct bpfmap_span bytes = bytes_of(word);
            append_hex(wanted, bytes.bytes, bytes.length, "-");
        } else {
            strcat(wanted, word);
        }
    }
}

/* Sends bytes on a connection of their own, and writes all that comes. */
static void run_raw(struct bpfmap_span sent)
{
    static struct bpfmap_client raw = {.timeout = TIMEOUT};
    int error, opened = bpfmap_find_host(&raw, "127.0.0.1", server_port, &error);
    uint8_t received[512];
    ssize_t count = 1;
    CHECK(opened >= 0, "no connection: %s", strerror(error));
    if (send(opened, sent.bytes, sent.length, MSG_NOSIGNAL) == (ssize_t)sent.length)
        shutdown(opened, SHUT_WR);
    while (count > 0) {
        count = recv(opened, received, sizeof received, 0);
        CHECK(count >= 0 || errno == ECONNRESET, "a raw row: %s", strerror(errno));
        append_hex(came, received, count > 0 ? (size_t)count : 0, "");
    }
    close(opened);
}

/* Runs a row. Whether what came is what is wanted. */
static int run_row(struct bpfmap_client *client, char *name, char *request_text, char *answer_text)
{
    struct words words = split(request_text), answer = split(answer_text);
    CHECK(words.count > 0 && answer.count > 0, "row '%s' has no words", name);
    stored = 0;
    *came = 0;
    if (strcmp(words.word[0], "raw") == 0) {
        struct bpfmap_span bytes = joined(answer.word, answer.count);
        *wanted = 0;
        append_hex(wanted, bytes.bytes, bytes.length, "");
        run_raw(joined(words.word + 1, words.count - 1));
    } else {
        struct bpfmap_request request = request_of(client, &words);
        make(client, &request, came);
        write_wanted(&answer);
    }
    if (strcmp(came, wanted) == 0)
        return 1;
    fprintf(stderr, "client c, row '%s': %.200s and not %.200s\n", name, came, wanted);
    return 0;
}

/* Whether a session of this version has the row: its name begins with another version where it has not. */
static int has_row(const char *name, int version)
{
    return strncmp(name, version == 1 ? "version 2: " : "version 1: ", 11) != 0;
}

/* Runs the rows of a session of this version. How many there are. */
static unsigned run_rows(const char *name, int version)
{
    static struct bpfmap_client client;
    static char line[LINE_BYTES];
    unsigned rows = 0, differences = 0;
    FILE *file = fopen(name, "r");
    CHECK(file, "there is no %s", name);
    start_server();
    connect_by_version(&client, version);
    while (fgets(line, sizeof line, file)) {
        char *request, *answer;
        line[strcspn(line, "\n")] = 0;
        if (*line == 0 || *line == '#' || !has_row(line, version))
            continue;
        request = strstr(line, " | ");
        answer = request ? strstr(request + 3, " | ") : NULL;
        CHECK(answer, "no row: %.60s", line);
        *request = *answer = 0;
        differences += !run_row(&client, line, request + 3, answer + 3);
        rows++;
    }
    fclose(file);
    bpfmap_close(&client);
    stop_server();
    CHECK(rows > 0 && differences == 0, "version %d: %u of %u rows differ", version, differences, rows);
    return rows;
}

int main(int count, char **word)
{
    unsigned first, second;
    CHECK(count == 2, "table FILE");
    first = run_rows(word[1], 1);
    second = run_rows(word[1], 2);
    printf("client c: %u rows of requests by version 1, %u by version 2\n", first, second);
    return 0;
}
