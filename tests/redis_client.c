/* Plays hiredis against a server on loopback: redis_client PORT mapd|redis. By redis_tools.sh, which compiles it. */
#include <hiredis/hiredis.h>
#include <stdio.h>
#include <stdlib.h>
#include <string.h>

enum { DEPTH = 10000 };

#define NEED(holds)                                                                                                    \
    do {                                                                                                               \
        if (!(holds)) {                                                                                                \
            fprintf(stderr, "redis_client: line %d: not so: %s\n", __LINE__, #holds);                                  \
            exit(1);                                                                                                   \
        }                                                                                                              \
    } while (0)

static const char sum[] = "#!bpf merge integer 64 8 8 8\nldd r0, [r2+0]\nldd r9, [r3+0]\nadd64 r0, r9\n"
                          "stxd [r4+0], r0\nmov64 r0, 8\nexit\n";

static int is_text(const redisReply *reply, int type, const char *text, size_t length)
{
    return reply && reply->type == type && reply->len == length && memcmp(reply->str, text, length) == 0;
}

static int is_number(const redisReply *reply, long long number)
{
    return reply && reply->type == REDIS_REPLY_INTEGER && reply->integer == number;
}

/* Values of any bytes, conditions, and replies of each type. */
static void play_strings(redisContext *context)
{
    static const char bytes[] = "\0\r\n\xff$1";
    redisReply *reply = redisCommand(context, "FLUSHALL");
    NEED(is_text(reply, REDIS_REPLY_STATUS, "OK", 2));
    freeReplyObject(reply);
    reply = redisCommand(context, "SET %b %b", bytes, sizeof bytes, bytes, sizeof bytes);
    NEED(is_text(reply, REDIS_REPLY_STATUS, "OK", 2));
    freeReplyObject(reply);
    reply = redisCommand(context, "GET %b", bytes, sizeof bytes);
    NEED(is_text(reply, REDIS_REPLY_STRING, bytes, sizeof bytes));
    freeReplyObject(reply);
    reply = redisCommand(context, "SET %b x NX", bytes, sizeof bytes);
    NEED(reply && reply->type == REDIS_REPLY_NIL);
    freeReplyObject(reply);
    reply = redisCommand(context, "MGET a %b", bytes, sizeof bytes);
    NEED(reply && reply->type == REDIS_REPLY_ARRAY && reply->elements == 2 && reply->element[0]->type == REDIS_REPLY_NIL);
    NEED(is_text(reply->element[1], REDIS_REPLY_STRING, bytes, sizeof bytes));
    freeReplyObject(reply);
    reply = redisCommand(context, "INCR %b", bytes, sizeof bytes);
    NEED(is_text(reply, REDIS_REPLY_ERROR, "ERR value is not an integer or out of range", 43));
    freeReplyObject(reply);
}

/* A pipeline of which no reply is read until all commands are sent. */
static void play_pipeline(redisContext *context)
{
    for (int i = 0; i < DEPTH; i++)
        NEED(redisAppendCommand(context, "INCRBY n %d", i % 3) == REDIS_OK);
    for (long long i = 0, total = 0; i < DEPTH; i++) {
        redisReply *reply;
        total += i % 3;
        NEED(redisGetReply(context, (void **)&reply) == REDIS_OK && is_number(reply, total));
        freeReplyObject(reply);
    }
}

/* A program, loaded and called. */
static void play_program(redisContext *context)
{
    redisReply *loaded = redisCommand(context, "SCRIPT LOAD %b", sum, sizeof sum - 1), *reply;
    NEED(loaded && loaded->type == REDIS_REPLY_STRING && loaded->len == 40);
    for (int i = 1; i <= 3; i++) {
        reply = redisCommand(context, "EVALSHA %s 1 hits 3", loaded->str);
        NEED(is_number(reply, 3 * i));
        freeReplyObject(reply);
    }
    reply = redisCommand(context, "EVAL %b 1 hits 3", sum, sizeof sum - 1);
    NEED(is_number(reply, 12));
    freeReplyObject(reply);
    freeReplyObject(loaded);
}

int main(int words, char **word)
{
    redisContext *context = words == 3 ? redisConnect("127.0.0.1", atoi(word[1])) : NULL;
    NEED(context && !context->err);
    play_strings(context);
    play_pipeline(context);
    if (strcmp(word[2], "redis") != 0)
        play_program(context);
    redisFree(context);
    printf("hiredis %d.%d: passed\n", HIREDIS_MAJOR, HIREDIS_MINOR);
    return 0;
}
