/* The types of the C client, and what their numbers mean. You don't include this header: bpfmap_client.h and bpfmap_session.h do.
 */
#ifndef BPFMAP_TYPES_H
#define BPFMAP_TYPES_H

#define BPFMAP_CLIENT_VERSION 20000 /* 2.0.0; README.md says what changed */
#define BPFMAP_CLIENT_VERSION_TEXT "2.0.0"

#if defined __STRICT_ANSI__ && !defined _POSIX_C_SOURCE
#define _POSIX_C_SOURCE 200809L
#endif

#include <stddef.h>
#include <stdint.h>
#include <string.h>

/* For the compiler: a function that each call goes through, and one that few calls do. */
#if defined __GNUC__
#define BPFMAP_HOT __attribute__((always_inline))
#define BPFMAP_COLD __attribute__((cold))
#else
#define BPFMAP_HOT
#define BPFMAP_COLD
#endif

enum {
    BPFMAP_VERSION = 2,             /* of the protocol, if you ask for no other */
    BPFMAP_KEY_BYTES = 64,          /* the longest key */
    BPFMAP_VALUE_BYTES = 1024,      /* the longest value or argument */
    BPFMAP_VALUE_BYTES_1 = 256,     /* the same in version 1 */
    BPFMAP_PROGRAM_BYTES = 32768,   /* the longest program that a frame can hold */
    BPFMAP_PROGRAM_BYTES_1 = 8183,  /* the same in version 1 */
    BPFMAP_DEPTH = 1024,            /* how many requests may wait for their answers */
    BPFMAP_PROGRAMS = 64,           /* how many programs a session remembers; an older one is registered again */
    BPFMAP_SENT_BYTES = 36864,      /* room for requests that are not sent; the longest request fits */
    BPFMAP_BUFFER_BYTES = 16384,    /* room for answers that are not read */
    BPFMAP_TEXT_BYTES = 400         /* room for what bpfmap_explain says */
};

/* ---- requests and replies */

/* What became of a call. Only BPFMAP_OK is 0. */
enum bpfmap_status {
    BPFMAP_OK,           /* the call did what its name says; the reply has its answer */
    BPFMAP_ABSENT,       /* the answer is nothing (Java's null): the key has no value now, or had none to remove or replace */
    BPFMAP_UNCHANGED,    /* a condition did not hold, so nothing changed: PutIfAbsent found a value, which the reply has;
                            RemoveIf and ReplaceIf found another value than the expected one, or none */
    BPFMAP_UNFIT,        /* the program did not run, and nothing changed: the reply's `window` is too small for this call */
    BPFMAP_END,          /* the walk is over; the reply has its counts */
    BPFMAP_REFUSED,      /* the reply's `refusal` says why. Nothing was done, unless its number is 65 */

    /* Nothing was sent, and the connection goes on. */
    BPFMAP_WAITING,      /* the next answer is not here yet: receive more bytes (bpfmap_session_next only) */
    BPFMAP_FULL,         /* there is no room for the request: send bytes first (bpfmap_session_ask only) */
    BPFMAP_UNREAD,       /* receive the answers to earlier requests first */
    BPFMAP_WALKING,      /* receive the rest of the walk first, leave it, or use another connection */
    BPFMAP_NOT_ASKED,    /* no request waits for an answer */
    BPFMAP_UNREGISTERED, /* register the program first, or send it when no request waits */
    BPFMAP_STALE,        /* the program's number is that of another connection */
    BPFMAP_BUSY,         /* another call of this client has not returned: another thread's, or one that was left by longjmp */

    /* The connection is closed. Calls without an answer may have been made; nothing makes them again. */
    BPFMAP_CLOSED,       /* you closed it, or left a walk */
    BPFMAP_NO_ADDRESS,   /* the host and port have no address */
    BPFMAP_BROKEN,       /* it failed, with errno in `error`; or the server ended it, with 0 */
    BPFMAP_TIMED_OUT,    /* the server neither sent nor took a byte for the whole timeout */
    BPFMAP_GARBLED,      /* the server sent what docs/PROTOCOL.md does not have in this place */
    BPFMAP_FORKED        /* another process opened it: connect in this process too */
};

/* Returns whether a status says what became of a call: the server answered it, or it was refused before it was sent. */
static inline int bpfmap_is_answer(enum bpfmap_status status)
{
    return status <= BPFMAP_REFUSED;
}

/* A number of docs/REFUSALS.md. The place is the unit of a refused program, else 0. */
struct bpfmap_refusal {
    uint8_t number;
    uint32_t place;
};

/* A key, a value, an argument or code. An argument whose bytes are NULL is absent; a key or value whose bytes are NULL is empty. */
struct bpfmap_span {
    const void *bytes;
    size_t length;
};

/* The windows that a program declares, in bytes. */
struct bpfmap_sizes {
    uint16_t key, old, arg, result;
};

/* A program: make it by bpfmap_program_of, or by bpfmap_numbered. Any number of clients and threads may share it. Keep the code as
 * it is for as long as you use the program. */
struct bpfmap_program {
    struct bpfmap_sizes sizes;
    struct bpfmap_span code;
    uint64_t mark;            /* tells sizes and code from others; 0 if it is to be worked out at each use */
    uint64_t session, number; /* of bpfmap_numbered; session is 0 otherwise */
};

/* Requests, by their tags. */
enum bpfmap_call {
    BPFMAP_HELLO = 0x00, BPFMAP_REGISTER = 0x01,
    BPFMAP_GET = 0x10, BPFMAP_PUT, BPFMAP_PUT_IF_ABSENT, BPFMAP_REMOVE, BPFMAP_REMOVE_IF, BPFMAP_REPLACE, BPFMAP_REPLACE_IF,
    BPFMAP_COMPUTE, BPFMAP_COMPUTE_IF_ABSENT, BPFMAP_COMPUTE_IF_PRESENT, BPFMAP_MERGE,
    BPFMAP_SEARCH = 0x20, BPFMAP_FOR_EACH, BPFMAP_REPLACE_ALL, BPFMAP_COUNT
};

/* A request. Each call reads the fields that the function of its name takes, and no other. */
struct bpfmap_request {
    enum bpfmap_call call;
    struct bpfmap_span key, expected, value, arg;
    const struct bpfmap_program *program;
    uint64_t threshold;
};

/* Which fields of a reply are set. All others are 0. */
enum bpfmap_kind {
    BPFMAP_NO_ANSWER,  /* none: there was no answer */
    BPFMAP_WELCOME,    /* to Hello: none */
    BPFMAP_REGISTERED, /* to Register: `number` */
    BPFMAP_VALUE,      /* `value`, `value_length` */
    BPFMAP_NOTHING,    /* none: Java's null */
    BPFMAP_DONE,       /* to RemoveIf and ReplaceIf: none; the status says whether it was done */
    BPFMAP_WINDOW,     /* of BPFMAP_UNFIT: `window` */
    BPFMAP_REFUSAL,    /* of BPFMAP_REFUSED: `refusal` */
    BPFMAP_ITEM,       /* of a walk: `key`, `key_length`, `value`, `value_length` */
    BPFMAP_COUNTS      /* of BPFMAP_END, Count and ReplaceAll: `scanned`, `given`, `unfit` */
};

enum bpfmap_window { BPFMAP_NO_WINDOW, BPFMAP_KEY_WINDOW, BPFMAP_OLD_WINDOW, BPFMAP_ARG_WINDOW };

/* A reply. Every call that takes one clears it first, so nothing of an earlier answer stays. A zero follows the bytes of a key and
 * of a value, so if they are text they can be read as a string. */
struct bpfmap_reply {
    enum bpfmap_call call; /* what it answers */
    enum bpfmap_kind kind;
    enum bpfmap_window window;
    struct bpfmap_refusal refusal;
    uint64_t number;
    uint64_t scanned, given, unfit;
    size_t key_length, value_length;
    uint8_t key[BPFMAP_KEY_BYTES + 1], value[BPFMAP_VALUE_BYTES + 1];
};

/* Returns these bytes as a key, value, argument or code. They are not copied. */
static inline struct bpfmap_span bpfmap_bytes(const void *bytes, size_t length)
{
    struct bpfmap_span span;
    span.bytes = bytes;
    span.length = length;
    return span;
}

/* Returns the bytes of a text, without the zero at its end. */
static inline struct bpfmap_span bpfmap_text(const char *text)
{
    return bpfmap_bytes(text, strlen(text));
}

/* Returns an argument that is absent. */
static inline struct bpfmap_span bpfmap_none(void)
{
    return bpfmap_bytes(NULL, 0);
}

/* Reads a number of 8 bytes as programs see it, little-endian. */
static inline uint64_t bpfmap_load64(const void *bytes)
{
    const uint8_t *from = (const uint8_t *)bytes;
    uint64_t number = 0;
    for (int i = 7; i >= 0; i--)
        number = number << 8 | from[i];
    return number;
}

/* Writes a number in 8 bytes as programs see it, little-endian. */
static inline void bpfmap_store64(void *bytes, uint64_t number)
{
    uint8_t *to = (uint8_t *)bytes;
    for (int i = 0; i < 8; i++)
        to[i] = (uint8_t)(number >> 8 * i);
}

/* Makes an empty request of this call: set the fields that it takes. */
static inline void bpfmap_begin_request(struct bpfmap_request *request, enum bpfmap_call call)
{
    memset(request, 0, sizeof *request);
    request->call = call;
}

/* Returns an empty request of this call: set the fields that it takes. */
static inline struct bpfmap_request bpfmap_request_of(enum bpfmap_call call)
{
    struct bpfmap_request request;
    bpfmap_begin_request(&request, call);
    return request;
}

/* ---- programs */

/* Returns the sizes of a program's windows, in the order of the protocol. */
static inline struct bpfmap_sizes bpfmap_windows(uint16_t key, uint16_t old, uint16_t arg, uint16_t result)
{
    struct bpfmap_sizes sizes;
    sizes.key = key;
    sizes.old = old;
    sizes.arg = arg;
    sizes.result = result;
    return sizes;
}

static inline uint64_t bpfmap_mix(uint64_t mark, uint64_t number)
{
    mark = (mark ^ number) * 0x9e3779b97f4a7c15u;
    return mark ^ mark >> 29;
}

/* Returns a number that tells a program from others: never 0. */
static inline uint64_t bpfmap_mark(const struct bpfmap_program *program)
{
    const uint8_t *code = (const uint8_t *)program->code.bytes;
    size_t length = program->code.length, at = 0;
    uint64_t mark = bpfmap_mix(length, program->sizes.key | (uint64_t)program->sizes.old << 16 |
                                           (uint64_t)program->sizes.arg << 32 | (uint64_t)program->sizes.result << 48);
    for (; length - at >= 8; at += 8)
        mark = bpfmap_mix(mark, bpfmap_load64(code + at));
    for (; at < length; at++)
        mark = bpfmap_mix(mark, code[at]);
    return mark ? mark : 1;
}

/* Returns the program with these windows and this code, which is not copied. It is registered at its first use on each
 * connection. */
static inline struct bpfmap_program bpfmap_program_of(struct bpfmap_sizes sizes, struct bpfmap_span code)
{
    struct bpfmap_program program;
    program.sizes = sizes;
    program.code = code;
    program.session = program.number = 0;
    program.mark = bpfmap_mark(&program);
    return program;
}

/* ---- what numbers and statuses mean */

/* Returns what a refusal means: the sentence of docs/REFUSALS.md, or from 60 on that of docs/PROTOCOL.md. For 40 to 47 it is how to
 * mend the program. */
static inline const char *bpfmap_sentence(uint8_t number)
{
    switch (number) {
    case 1: return "a key has more than 64 bytes, a value or argument more than 1,024 (in version 1 of the protocol 256)";
    case 9: return "a request for memory was refused";
    case 10: return "there is no byte";
    case 11: return "the number of bytes is no multiple of 8";
    case 12: return "there are more than 4,096 units (in version 1 of the protocol 512)";
    case 13: return "the opcode is no instruction's";
    case 14: return "a register field that the instruction uses is above 10";
    case 15: return "a field that the instruction doesn't use is not zero";
    case 16: return "an offset of DIV or MOD other than 0 and 1, one of MOV with a register that is none of 0, 8, 16 "
                    "(and 32 at 64 bits), an END of other than 16, 32 or 64 bits";
    case 17: return "a wide instruction has no second unit";
    case 30: return "a jump's distance is below 0";
    case 31: return "a jump goes to the number of units or past it";
    case 32: return "a jump goes to the second unit of a wide instruction";
    case 33: return "the last instruction is neither EXIT nor an unconditional jump";
    case 40: return "write the register on every way that leads here";
    case 41: return "copy it first: mov64 r9, r10";
    case 42: return "keep addresses apart from numbers where ways meet, and move them by 64-bit ADD and SUB alone";
    case 43: return "declare the size greater, or mask or test the number that was added";
    case 44: return "store to result or stack";
    case 45: return "store all bytes that the load may touch first, at fixed places, on every way";
    case 46: return "write the answer's bytes without a gap on every way, or give each answer an EXIT of its own";
    case 47: return "declare less";
    case 60: return "a length of 0, or above 32,777 (in version 1 and before a Hello 8,192)";
    case 61: return "a tag that is not in the table";
    case 62: return "cut fields, a key above 64 bytes, a value above 1,024 (in version 1 and before a Hello 256), "
                    "or ff ff in place of a value";
    case 63: return "bytes after the last field";
    case 64: return "a Hello of a version other than 1 and 2, a first request that is no Hello, or a second Hello";
    case 65: return "the answer has a value of more than 256 bytes, which version 1 does not carry; the call was made";
    case 66: return "no program has this number";
    default: return "this client knows no refusal of this number";
    }
}

/* Returns what a status means, but for a refusal and a connection that broke, which have more to say. */
static inline const char *bpfmap_meaning(enum bpfmap_status status)
{
    switch (status) {
    case BPFMAP_OK: return "the call was made";
    case BPFMAP_ABSENT: return "the key is absent";
    case BPFMAP_UNCHANGED: return "nothing was changed: the key's value is not as the call expects it";
    case BPFMAP_UNFIT: return "the program did not run: the key, the old value or the argument is longer than its window";
    case BPFMAP_END: return "the walk is over";
    case BPFMAP_REFUSED: return "the request was refused";
    case BPFMAP_WAITING: return "the next answer is not here yet: receive more bytes";
    case BPFMAP_FULL: return "there is no room for the request: send bytes first";
    case BPFMAP_UNREAD: return "nothing was sent: receive the answers to earlier requests first";
    case BPFMAP_WALKING: return "nothing was sent: receive the rest of the walk first, leave it, or use another connection";
    case BPFMAP_NOT_ASKED: return "no request waits for an answer";
    case BPFMAP_UNREGISTERED: return "nothing was sent: register the program on this connection first";
    case BPFMAP_STALE: return "nothing was sent: this program's number ended with an earlier connection; "
                              "give the program's code instead, or take its number anew";
    case BPFMAP_BUSY: return "nothing was sent: another call of this client has not returned; "
                             "if it never will, close the client and connect again";
    case BPFMAP_CLOSED: return "the client is closed: connect first";
    case BPFMAP_NO_ADDRESS: return "the host and port have no address";
    case BPFMAP_BROKEN: return "the connection broke";
    case BPFMAP_TIMED_OUT: return "the server did not answer in time; calls without an answer may have been made; connect again";
    case BPFMAP_GARBLED: return "the server sent what the protocol does not have in this place: connect again";
    case BPFMAP_FORKED: return "nothing was sent: the client was connected by another process; connect in this one too";
    }
    return "no status has this number";
}

#endif
