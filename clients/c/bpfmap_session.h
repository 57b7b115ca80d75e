/* A session of `mapd` as bytes, without sockets, in C99 and C++11. Use it under an event loop of your own: it turns requests into
 * bytes, and bytes into replies. bpfmap_client.h does the same over a blocking socket, and stands on this header. docs/PROTOCOL.md
 * says what goes over the wire.
 *
 *     static struct bpfmap_session session;
 *     bpfmap_session_begin(&session, BPFMAP_VERSION);
 *     if the socket can be written:
 *         struct bpfmap_span out = bpfmap_session_output(&session);
 *         bpfmap_session_sent(&session, (size_t)send(socket, out.bytes, out.length, 0));
 *     if the socket can be read:
 *         size_t length;
 *         uint8_t *room = bpfmap_session_room(&session, &length);
 *         bpfmap_session_received(&session, (size_t)recv(socket, room, length, 0));
 *         while (bpfmap_is_answer(status = bpfmap_session_next(&session, &reply)))
 *             take(status, &reply);
 *
 * The first reply answers the Hello. bpfmap_session_ask takes further requests at any time. If send or recv fails, or recv
 * returns 0, call bpfmap_session_end.
 *
 * A session has fixed buffers, 56 KB in all, and never allocates. One thread at a time uses it. */
#ifndef BPFMAP_SESSION_H
#define BPFMAP_SESSION_H

#include "bpfmap_types.h"

#include <stdio.h>
#include <time.h>

#if !defined CLOCK_MONOTONIC
#error "include this header before other headers, or define _POSIX_C_SOURCE as 200809L"
#endif

/* A program that a session registered, by its mark, and the server's number for it. */
struct bpfmap_known {
    uint64_t mark, number;
};

/* Read `status`, `error` and `refusal`; the rest is the session's own. */
struct bpfmap_session {
    enum bpfmap_status status; /* BPFMAP_OK, or why the connection is closed */
    int error;
    struct bpfmap_refusal refusal; /* the last one */

    uint64_t id; /* no other session of this process has it */
    int version; /* of the protocol */
    size_t longest_value;           /* of a value or argument in this version; and of an answer's body */
    size_t longest_answer;
    size_t first_waiting, waiting;
    size_t out_begin, out_end;      /* requests that are not sent */
    size_t in_begin, in_end;        /* answers that are not read */
    size_t registers, registering;  /* how many Registers were asked for, and how many of them wait for their answers */
    size_t forgetting;              /* how many more wait whose answers will be forgotten */
    struct bpfmap_known known[BPFMAP_PROGRAMS]; /* the last ones, by their place modulo BPFMAP_PROGRAMS */
    uint8_t calls[BPFMAP_DEPTH];    /* the tags of the requests that wait, from first_waiting on, round the end */
    uint8_t out[BPFMAP_SENT_BYTES], in[BPFMAP_BUFFER_BYTES];
    char text[BPFMAP_TEXT_BYTES];
};

/* ---- programs of a session */

/* Returns the program that the server of this session knows by this number, which another client may have registered. On any other
 * session it is refused with BPFMAP_STALE, before anything is sent. */
static inline struct bpfmap_program bpfmap_session_numbered(const struct bpfmap_session *session, uint64_t number)
{
    struct bpfmap_program program;
    memset(&program, 0, sizeof program);
    program.session = session->id;
    program.number = number;
    return program;
}

/* Looks up the number that the server gave to a program in this session. */
static inline enum bpfmap_status bpfmap_find_number(const struct bpfmap_session *session, const struct bpfmap_program *program,
                                                    uint64_t *number)
{
    size_t settled = session->registers - session->registering;
    size_t oldest = session->registers > BPFMAP_PROGRAMS ? session->registers - BPFMAP_PROGRAMS : 0;
    uint64_t mark;
    if (program->session != 0) {
        *number = program->number;
        return program->session == session->id ? BPFMAP_OK : BPFMAP_STALE;
    }
    mark = program->mark ? program->mark : bpfmap_mark(program);
    while (settled > oldest) {
        const struct bpfmap_known *known = &session->known[--settled % BPFMAP_PROGRAMS];
        *number = known->number;
        if (known->mark == mark)
            return BPFMAP_OK;
    }
    return BPFMAP_UNREGISTERED;
}

/* Notes that a Register was asked for. If too many of them wait, its number will be forgotten. */
static inline BPFMAP_COLD void bpfmap_begin_known(struct bpfmap_session *session, const struct bpfmap_program *program)
{
    if (session->registering == BPFMAP_PROGRAMS || session->forgetting > 0) {
        session->forgetting++;
        return;
    }
    session->known[session->registers % BPFMAP_PROGRAMS].mark = bpfmap_mark(program);
    session->registers++;
    session->registering++;
}

/* Notes the answer to the oldest Register that waits: its number, or that it was refused. */
static inline BPFMAP_COLD void bpfmap_settle_known(struct bpfmap_session *session, int is_refused, uint64_t number)
{
    struct bpfmap_known *known = &session->known[(session->registers - session->registering) % BPFMAP_PROGRAMS];
    if (session->registering == 0) {
        session->forgetting--;
        return;
    }
    known->number = number;
    if (is_refused)
        known->mark = 0;
    session->registering--;
}

/* Returns what to do about a refusal, beside its sentence. */
static inline const char *bpfmap_remedy(const struct bpfmap_session *session)
{
    if (session->refusal.number == 64)
        return session->version == 1 ? "; the server does not know version 1" : "; the server does not know this version: "
                                                                                "ask for version 1 (bpfmap_connect_version)";
    return "";
}

/* Returns what a status means; for a refusal with its number and place. The text is the session's, until you ask again. */
static inline const char *bpfmap_session_explain(struct bpfmap_session *session, enum bpfmap_status status)
{
    if (status == BPFMAP_REFUSED)
        snprintf(session->text, sizeof session->text, "refused %u at %lu: %s%s", (unsigned)session->refusal.number,
                 (unsigned long)session->refusal.place, bpfmap_sentence(session->refusal.number), bpfmap_remedy(session));
    else if (status == BPFMAP_BROKEN)
        snprintf(session->text, sizeof session->text, "%s%s; calls without an answer may have been made; connect again",
                 session->error ? "the connection broke: " : "the server ended the connection",
                 session->error ? strerror(session->error) : "");
    else
        return bpfmap_meaning(status);
    return session->text;
}

/* ---- requests as bytes */

static inline uint8_t *bpfmap_write16(uint8_t *to, size_t number)
{
    to[0] = (uint8_t)(number >> 8);
    to[1] = (uint8_t)number;
    return to + 2;
}

static inline uint8_t *bpfmap_write32(uint8_t *to, size_t number)
{
    return bpfmap_write16(bpfmap_write16(to, number >> 16), number & 0xffff);
}

static inline uint8_t *bpfmap_write64(uint8_t *to, uint64_t number)
{
    return bpfmap_write32(bpfmap_write32(to, (size_t)(number >> 32)), (size_t)(number & 0xffffffff));
}

static inline uint8_t *bpfmap_write_bytes(uint8_t *to, struct bpfmap_span from)
{
    if (from.length > 0)
        memcpy(to, from.bytes, from.length);
    return to + from.length;
}

static inline uint8_t *bpfmap_write_value(uint8_t *to, struct bpfmap_span value)
{
    return bpfmap_write_bytes(bpfmap_write16(to, value.length), value);
}

/* The fields of requests. In a frame they stand in this order. */
enum {
    BPFMAP_HAS_VERSION = 1, BPFMAP_HAS_CODE = 2, BPFMAP_HAS_KEY = 4, BPFMAP_HAS_EXPECTED = 8, BPFMAP_HAS_VALUE = 16,
    BPFMAP_HAS_PROGRAM = 32, BPFMAP_HAS_ARG = 64, BPFMAP_HAS_THRESHOLD = 128,
    BPFMAP_GIVES_VALUE = 256 /* no field: the answer is a value or nothing */
};

static inline unsigned bpfmap_fields(enum bpfmap_call call)
{
    switch (call) {
    case BPFMAP_HELLO: return BPFMAP_HAS_VERSION;
    case BPFMAP_REGISTER: return BPFMAP_HAS_CODE;
    case BPFMAP_GET: case BPFMAP_REMOVE: return BPFMAP_HAS_KEY | BPFMAP_GIVES_VALUE;
    case BPFMAP_PUT: case BPFMAP_PUT_IF_ABSENT: case BPFMAP_REPLACE:
        return BPFMAP_HAS_KEY | BPFMAP_HAS_VALUE | BPFMAP_GIVES_VALUE;
    case BPFMAP_REMOVE_IF: return BPFMAP_HAS_KEY | BPFMAP_HAS_EXPECTED;
    case BPFMAP_REPLACE_IF: return BPFMAP_HAS_KEY | BPFMAP_HAS_EXPECTED | BPFMAP_HAS_VALUE;
    case BPFMAP_COMPUTE: case BPFMAP_COMPUTE_IF_ABSENT: case BPFMAP_COMPUTE_IF_PRESENT:
        return BPFMAP_HAS_KEY | BPFMAP_HAS_PROGRAM | BPFMAP_HAS_ARG | BPFMAP_GIVES_VALUE;
    case BPFMAP_MERGE: return BPFMAP_HAS_KEY | BPFMAP_HAS_VALUE | BPFMAP_HAS_PROGRAM | BPFMAP_GIVES_VALUE;
    case BPFMAP_SEARCH: case BPFMAP_FOR_EACH: return BPFMAP_HAS_PROGRAM | BPFMAP_HAS_ARG | BPFMAP_HAS_THRESHOLD;
    case BPFMAP_REPLACE_ALL: return BPFMAP_HAS_PROGRAM | BPFMAP_HAS_ARG;
    case BPFMAP_COUNT: return 0;
    }
    return 0;
}

/* Returns the number of the refusal that a program's code gets before it is sent, or 0. */
static inline BPFMAP_COLD uint8_t bpfmap_refuse_code(const struct bpfmap_session *session, size_t length)
{
    size_t longest = session->version == 1 ? BPFMAP_PROGRAM_BYTES_1 : BPFMAP_PROGRAM_BYTES;
    if (length <= longest)
        return 0;
    return length % 8 ? 11 : 12;
}

/* Whether a key, value or argument is too long for this version. */
static inline int bpfmap_is_too_long(const struct bpfmap_session *session, const struct bpfmap_request *request, unsigned fields)
{
    size_t longest = session->longest_value;
    if (fields & BPFMAP_HAS_KEY && request->key.length > BPFMAP_KEY_BYTES)
        return 1;
    if (!(fields & (BPFMAP_HAS_EXPECTED | BPFMAP_HAS_VALUE | BPFMAP_HAS_ARG)))
        return 0;
    return (fields & BPFMAP_HAS_EXPECTED && request->expected.length > longest) ||
           (fields & BPFMAP_HAS_VALUE && request->value.length > longest) ||
           (fields & BPFMAP_HAS_ARG && request->arg.bytes && request->arg.length > longest);
}

/* Returns room that is enough for a request's frame. */
static inline size_t bpfmap_frame_room(const struct bpfmap_request *request, unsigned fields)
{
    enum { HEAD = 4 + 1, LONGEST = HEAD + 1 + BPFMAP_KEY_BYTES + 2 * (2 + BPFMAP_VALUE_BYTES) + 8 };
    if (fields & BPFMAP_HAS_CODE)
        return HEAD + 8 + request->program->code.length;
    return LONGEST;
}

static inline uint8_t *bpfmap_write_program(uint8_t *to, const struct bpfmap_program *program)
{
    to = bpfmap_write16(to, program->sizes.key);
    to = bpfmap_write16(to, program->sizes.old);
    to = bpfmap_write16(to, program->sizes.arg);
    to = bpfmap_write16(to, program->sizes.result);
    return bpfmap_write_bytes(to, program->code);
}

/* Writes the fields of a request after its key. */
static inline uint8_t *bpfmap_write_rest(uint8_t *to, const struct bpfmap_request *request, unsigned fields, uint64_t number)
{
    if (fields & BPFMAP_HAS_EXPECTED)
        to = bpfmap_write_value(to, request->expected);
    if (fields & BPFMAP_HAS_VALUE)
        to = bpfmap_write_value(to, request->value);
    if (fields & BPFMAP_HAS_PROGRAM)
        to = bpfmap_write64(to, number);
    if (fields & BPFMAP_HAS_ARG)
        to = request->arg.bytes ? bpfmap_write_value(to, request->arg) : bpfmap_write16(to, 0xffff);
    if (fields & BPFMAP_HAS_THRESHOLD)
        to = bpfmap_write64(to, request->threshold);
    return to;
}

/* Writes a request's frame, and returns its end. */
static inline uint8_t *bpfmap_write_frame(uint8_t *frame, const struct bpfmap_request *request, unsigned fields, uint64_t number,
                                          int version)
{
    uint8_t *to = frame + 4;
    *to++ = (uint8_t)request->call;
    if (fields & BPFMAP_HAS_KEY) {
        *to++ = (uint8_t)request->key.length;
        to = bpfmap_write_bytes(to, request->key);
    } else if (fields & BPFMAP_HAS_VERSION) {
        *to++ = (uint8_t)version;
    } else if (fields & BPFMAP_HAS_CODE) {
        to = bpfmap_write_program(to, request->program);
    }
    if (fields & ~(unsigned)(BPFMAP_HAS_KEY | BPFMAP_GIVES_VALUE))
        to = bpfmap_write_rest(to, request, fields, number);
    bpfmap_write32(frame, (size_t)(to - frame - 4));
    return to;
}

/* ---- replies from bytes */

static inline size_t bpfmap_read16(const uint8_t *from)
{
    return (size_t)from[0] << 8 | from[1];
}

static inline uint32_t bpfmap_read32(const uint8_t *from)
{
    return (uint32_t)from[0] << 24 | (uint32_t)from[1] << 16 | (uint32_t)from[2] << 8 | from[3];
}

static inline uint64_t bpfmap_read64(const uint8_t *from)
{
    return (uint64_t)bpfmap_read32(from) << 32 | bpfmap_read32(from + 4);
}

static inline int bpfmap_is_walk(enum bpfmap_call call)
{
    return call == BPFMAP_SEARCH || call == BPFMAP_FOR_EACH;
}

/* Takes a value and nothing after it. Returns whether it is one. */
static inline int bpfmap_take_value(const struct bpfmap_session *session, const uint8_t *from, size_t size,
                                    struct bpfmap_reply *reply)
{
    size_t length = size < 2 ? 0 : bpfmap_read16(from);
    if (size != 2 + length || length > session->longest_value)
        return 0;
    reply->value_length = length;
    memcpy(reply->value, from + 2, length);
    return 1;
}

/* Takes a Value response. */
static inline BPFMAP_HOT enum bpfmap_status bpfmap_take_answer(const struct bpfmap_session *session, const uint8_t *body,
                                                               size_t size, struct bpfmap_reply *reply)
{
    if (!(bpfmap_fields(reply->call) & BPFMAP_GIVES_VALUE))
        return BPFMAP_GARBLED;
    if (bpfmap_take_value(session, body + 1, size - 1, reply)) {
        reply->kind = BPFMAP_VALUE;
        return reply->call == BPFMAP_PUT_IF_ABSENT ? BPFMAP_UNCHANGED : BPFMAP_OK;
    }
    if (size != 3 || bpfmap_read16(body + 1) != 0xffff)
        return BPFMAP_GARBLED;
    reply->kind = BPFMAP_NOTHING;
    return reply->call == BPFMAP_PUT || reply->call == BPFMAP_PUT_IF_ABSENT ? BPFMAP_OK : BPFMAP_ABSENT;
}

/* Takes an Item response. */
static inline enum bpfmap_status bpfmap_take_item(const struct bpfmap_session *session, const uint8_t *body, size_t size,
                                                  struct bpfmap_reply *reply)
{
    size_t length = size < 2 ? 0 : body[1];
    if (!bpfmap_is_walk(reply->call) || size < 2 || length > BPFMAP_KEY_BYTES || size < 2 + length)
        return BPFMAP_GARBLED;
    reply->kind = BPFMAP_ITEM;
    reply->key_length = length;
    memcpy(reply->key, body + 2, length);
    return bpfmap_take_value(session, body + 2 + length, size - 2 - length, reply) ? BPFMAP_OK : BPFMAP_GARBLED;
}

/* Takes an End response. */
static inline BPFMAP_COLD enum bpfmap_status bpfmap_take_counts(const uint8_t *body, size_t size, struct bpfmap_reply *reply)
{
    if (reply->call < BPFMAP_SEARCH || size != 25)
        return BPFMAP_GARBLED;
    reply->kind = BPFMAP_COUNTS;
    reply->scanned = bpfmap_read64(body + 1);
    reply->given = bpfmap_read64(body + 9);
    reply->unfit = bpfmap_read64(body + 17);
    return bpfmap_is_walk(reply->call) ? BPFMAP_END : BPFMAP_OK;
}

/* Takes a Refused response. */
static inline BPFMAP_COLD enum bpfmap_status bpfmap_take_refusal(struct bpfmap_session *session, const uint8_t *body,
                                                                 size_t size, struct bpfmap_reply *reply)
{
    if (size != 6)
        return BPFMAP_GARBLED;
    reply->kind = BPFMAP_REFUSAL;
    reply->refusal.number = body[1];
    reply->refusal.place = bpfmap_read32(body + 2);
    session->refusal = reply->refusal;
    return BPFMAP_REFUSED;
}

/* Takes the response whose body has this tag, of the smaller kinds. */
static inline BPFMAP_COLD enum bpfmap_status bpfmap_take_small(const struct bpfmap_session *session, const uint8_t *body,
                                                               size_t size, struct bpfmap_reply *reply)
{
    enum bpfmap_call call = reply->call;
    if (body[0] == 0x80 && call == BPFMAP_HELLO && size == 2 && body[1] == session->version) {
        reply->kind = BPFMAP_WELCOME;
        return BPFMAP_OK;
    }
    if (body[0] == 0x81 && call == BPFMAP_REGISTER && size == 9) {
        reply->kind = BPFMAP_REGISTERED;
        reply->number = bpfmap_read64(body + 1);
        return BPFMAP_OK;
    }
    if (body[0] == 0x83 && (call == BPFMAP_REMOVE_IF || call == BPFMAP_REPLACE_IF) && size == 2 && body[1] <= 1) {
        reply->kind = BPFMAP_DONE;
        return body[1] ? BPFMAP_OK : BPFMAP_UNCHANGED;
    }
    if (body[0] == 0x84 && call >= BPFMAP_COMPUTE && call <= BPFMAP_MERGE && size == 2 && body[1] >= BPFMAP_KEY_WINDOW &&
        body[1] <= BPFMAP_ARG_WINDOW) {
        reply->kind = BPFMAP_WINDOW;
        reply->window = (enum bpfmap_window)body[1];
        return BPFMAP_UNFIT;
    }
    return BPFMAP_GARBLED;
}

/* Takes a response to the reply's call. The body has a byte at least. */
static inline BPFMAP_HOT enum bpfmap_status bpfmap_take(struct bpfmap_session *session, const uint8_t *body, size_t size,
                                             struct bpfmap_reply *reply)
{
    if (body[0] == 0x82)
        return bpfmap_take_answer(session, body, size, reply);
    switch (body[0]) {
    case 0x85: return bpfmap_take_refusal(session, body, size, reply);
    case 0x86: return bpfmap_take_item(session, body, size, reply);
    case 0x87: return bpfmap_take_counts(body, size, reply);
    default: return bpfmap_take_small(session, body, size, reply);
    }
}

/* ---- the session */

/* Ends the session for this reason, which all later requests get too. Answers that were received are still given. */
static inline BPFMAP_COLD enum bpfmap_status bpfmap_session_end(struct bpfmap_session *session, enum bpfmap_status status,
                                                                int error)
{
    if (session->status == BPFMAP_OK) {
        session->status = status;
        session->error = error;
    }
    session->out_begin = session->out_end = 0;
    return session->status;
}

/* Returns the bytes that are to be sent. */
static inline struct bpfmap_span bpfmap_session_output(const struct bpfmap_session *session)
{
    return bpfmap_bytes(session->out + session->out_begin, session->out_end - session->out_begin);
}

/* Notes that the first bytes of the output were sent. */
static inline void bpfmap_session_sent(struct bpfmap_session *session, size_t count)
{
    session->out_begin += count;
    if (session->out_begin == session->out_end)
        session->out_begin = session->out_end = 0;
}

/* Makes room for a request of this size. Returns whether there is. */
static inline int bpfmap_make_out_room(struct bpfmap_session *session, size_t size)
{
    if (BPFMAP_SENT_BYTES - session->out_end >= size)
        return 1;
    memmove(session->out, session->out + session->out_begin, session->out_end - session->out_begin);
    session->out_end -= session->out_begin;
    session->out_begin = 0;
    return BPFMAP_SENT_BYTES - session->out_end >= size;
}

/* Refuses a request before it is sent. */
static inline BPFMAP_COLD enum bpfmap_status bpfmap_refuse(struct bpfmap_session *session, uint8_t number)
{
    session->refusal.number = number;
    session->refusal.place = 0;
    return BPFMAP_REFUSED;
}

/* Returns why a request with a program can't be taken now; or BPFMAP_OK, and sets the program's number. */
static inline enum bpfmap_status bpfmap_may_use_program(struct bpfmap_session *session, const struct bpfmap_request *request,
                                                        unsigned fields, uint64_t *number)
{
    uint8_t refused;
    if (!request->program)
        return BPFMAP_UNREGISTERED;
    if (fields & BPFMAP_HAS_PROGRAM)
        return bpfmap_find_number(session, request->program, number);
    refused = bpfmap_refuse_code(session, request->program->code.length);
    return refused ? bpfmap_refuse(session, refused) : BPFMAP_OK;
}

/* Returns why a request can't be taken now; or BPFMAP_OK, and sets its program's number. */
static inline enum bpfmap_status bpfmap_may_ask(struct bpfmap_session *session, const struct bpfmap_request *request,
                                                unsigned fields, uint64_t *number)
{
    if (session->status != BPFMAP_OK)
        return session->status;
    if (session->waiting == 0 && session->in_begin < session->in_end) /* bytes that nobody asked for */
        return bpfmap_session_end(session, BPFMAP_GARBLED, 0);
    if (bpfmap_is_too_long(session, request, fields))
        return bpfmap_refuse(session, 1);
    if (session->waiting == BPFMAP_DEPTH)
        return BPFMAP_UNREAD;
    if (fields & (BPFMAP_HAS_PROGRAM | BPFMAP_HAS_CODE))
        return bpfmap_may_use_program(session, request, fields, number);
    return BPFMAP_OK;
}

/* Takes a request: its bytes are in the output then. If it has a program with code, a Register of that program must have been
 * answered in this session. Returns BPFMAP_OK, or why it was not taken. */
static inline enum bpfmap_status bpfmap_session_ask(struct bpfmap_session *session, const struct bpfmap_request *request)
{
    unsigned fields = bpfmap_fields(request->call);
    uint64_t number = 0;
    enum bpfmap_status status = bpfmap_may_ask(session, request, fields, &number);
    if (status != BPFMAP_OK)
        return status;
    if (!bpfmap_make_out_room(session, bpfmap_frame_room(request, fields)))
        return BPFMAP_FULL;
    session->out_end =
        (size_t)(bpfmap_write_frame(session->out + session->out_end, request, fields, number, session->version) - session->out);
    session->calls[(session->first_waiting + session->waiting) % BPFMAP_DEPTH] = (uint8_t)request->call;
    session->waiting++;
    if (fields & BPFMAP_HAS_CODE)
        bpfmap_begin_known(session, request->program);
    return BPFMAP_OK;
}

/* Begins a session of this version of the protocol, 1 or 2: its Hello is the first output, and its first reply answers that. */
static inline void bpfmap_session_begin(struct bpfmap_session *session, int version)
{
    struct bpfmap_request hello = bpfmap_request_of(BPFMAP_HELLO);
    struct timespec now;
    memset(&now, 0, sizeof now);
    clock_gettime(CLOCK_MONOTONIC, &now);
    memset(session, 0, offsetof(struct bpfmap_session, known));
    session->id = ((((uint64_t)now.tv_sec * 1000000000u + (uint64_t)now.tv_nsec) << 16) ^ (uint64_t)(uintptr_t)session) | 1;
    session->version = version;
    session->longest_value = version == 1 ? BPFMAP_VALUE_BYTES_1 : BPFMAP_VALUE_BYTES;
    session->longest_answer = 1 + 1 + BPFMAP_KEY_BYTES + 2 + session->longest_value; /* an Item */
    bpfmap_session_ask(session, &hello);
}

/* Returns where to receive bytes, and sets how many fit. None fit if so many answers are not read. */
static inline uint8_t *bpfmap_session_room(struct bpfmap_session *session, size_t *length)
{
    enum { LONGEST_FRAME = 4 + 1 + 1 + BPFMAP_KEY_BYTES + 2 + BPFMAP_VALUE_BYTES };
    if (session->in_begin == session->in_end)
        session->in_begin = session->in_end = 0;
    if (BPFMAP_BUFFER_BYTES - session->in_end < LONGEST_FRAME && session->in_begin > 0) {
        memmove(session->in, session->in + session->in_begin, session->in_end - session->in_begin);
        session->in_end -= session->in_begin;
        session->in_begin = 0;
    }
    *length = BPFMAP_BUFFER_BYTES - session->in_end;
    return session->in + session->in_end;
}

/* Notes that so many bytes were received into the room. */
static inline void bpfmap_session_received(struct bpfmap_session *session, size_t count)
{
    session->in_end += count;
}

/* Takes bytes that were received elsewhere, as many as fit. Returns how many that were. */
static inline size_t bpfmap_session_feed(struct bpfmap_session *session, const void *bytes, size_t length)
{
    size_t fits;
    uint8_t *room = bpfmap_session_room(session, &fits);
    if (length > fits)
        length = fits;
    memcpy(room, bytes, length);
    bpfmap_session_received(session, length);
    return length;
}

/* Returns whether the next answer's frame is there: 1; or 0; or -1 if no answer has this length. */
static inline BPFMAP_HOT int bpfmap_has_frame(const struct bpfmap_session *session, size_t *size)
{
    const uint8_t *frame = session->in + session->in_begin;
    size_t there = session->in_end - session->in_begin;
    if (there < 4)
        return 0;
    *size = bpfmap_read32(frame);
    if (*size == 0 || *size > session->longest_answer)
        return -1;
    return there - 4 >= *size;
}

/* Drops the request that was answered. */
static inline BPFMAP_HOT void bpfmap_drop_waiting(struct bpfmap_session *session, const struct bpfmap_reply *reply)
{
    session->first_waiting = (session->first_waiting + 1) % BPFMAP_DEPTH;
    session->waiting--;
    if (reply->call == BPFMAP_REGISTER)
        bpfmap_settle_known(session, reply->kind == BPFMAP_REFUSAL, reply->number);
}

/* Drops the requests that wait, and the answers that were received. */
static inline void bpfmap_session_forget(struct bpfmap_session *session)
{
    session->waiting = 0;
    session->in_begin = session->in_end = 0;
}

/* Ends a session whose server sent no answer: nothing more of it is read. */
static inline BPFMAP_COLD enum bpfmap_status bpfmap_session_garbled(struct bpfmap_session *session)
{
    bpfmap_session_forget(session);
    session->status = BPFMAP_OK;
    return bpfmap_session_end(session, BPFMAP_GARBLED, 0);
}

/* Clears a reply, unless it is NULL. The size is volatile, so that the compiler calls memset: what it writes in its place takes
 * twice as long. All bytes are cleared, since what the memory had before can't be known: it may be the reply of another client. */
static inline BPFMAP_HOT void bpfmap_clear(struct bpfmap_reply *reply)
{
    volatile size_t size = sizeof *reply;
    if (reply)
        memset(reply, 0, size);
}

/* Gives the reply whose frame has this size. If it is NULL the answer goes into one that nobody reads, so only what the session
 * reads of that is cleared. */
static inline BPFMAP_HOT enum bpfmap_status bpfmap_take_frame(struct bpfmap_session *session, size_t size,
                                                              struct bpfmap_reply *reply)
{
    struct bpfmap_reply unread;
    enum bpfmap_status status;
    if (reply) {
        bpfmap_clear(reply);
    } else {
        reply = &unread;
        memset(reply, 0, offsetof(struct bpfmap_reply, key));
    }
    reply->call = (enum bpfmap_call)session->calls[session->first_waiting];
    status = bpfmap_take(session, session->in + session->in_begin + 4, size, reply);
    if (status == BPFMAP_GARBLED) {
        bpfmap_clear(reply);
        return bpfmap_session_garbled(session);
    }
    session->in_begin += 4 + size;
    if (reply->kind != BPFMAP_ITEM)
        bpfmap_drop_waiting(session, reply);
    return status;
}

/* Does what bpfmap_session_next says, but leaves the reply as it is if it returns BPFMAP_WAITING. */
static inline BPFMAP_HOT enum bpfmap_status bpfmap_try_next(struct bpfmap_session *session, struct bpfmap_reply *reply)
{
    size_t size = 0;
    int has_frame = session->waiting > 0 ? bpfmap_has_frame(session, &size) : 0;
    if (has_frame > 0)
        return bpfmap_take_frame(session, size, reply);
    if (has_frame == 0 && session->waiting > 0 && session->status == BPFMAP_OK)
        return BPFMAP_WAITING;
    bpfmap_clear(reply);
    if (has_frame < 0)
        return bpfmap_session_garbled(session);
    return bpfmap_is_answer(session->status) ? BPFMAP_NOT_ASKED : session->status; /* BPFMAP_REFUSED: the Hello was */
}

/* Gives the next reply: they come in the order of the requests. A walk has one for each Item, and BPFMAP_END. The reply may be NULL
 * if you don't need it. Returns its status;
 * BPFMAP_WAITING if it is not here yet; BPFMAP_NOT_ASKED if no request waits; or why the session ended. */
static inline enum bpfmap_status bpfmap_session_next(struct bpfmap_session *session, struct bpfmap_reply *reply)
{
    enum bpfmap_status status = bpfmap_try_next(session, reply);
    if (status == BPFMAP_WAITING)
        bpfmap_clear(reply);
    return status;
}

#endif
