/* A client of each version of the protocol on one map: each keeps to its limits, and an answer that is too long for version 1 is
 * refused there with 65, and the call was made. */
#include "../bpfmap_client.h"
#include "server.h"

enum { LEAST_LONG = BPFMAP_VALUE_BYTES_1 + 1, MANY = 200 };

static struct bpfmap_client old, new;
static struct bpfmap_reply reply;
static uint8_t longest[BPFMAP_VALUE_BYTES + 1];

static struct bpfmap_span name(void)
{
    return bpfmap_text("name");
}

static struct bpfmap_span value_of(size_t length)
{
    return bpfmap_bytes(longest, length);
}

/* Whether the answer that came is this value. */
static void check_value(struct bpfmap_client *client, enum bpfmap_status status, struct bpfmap_span wanted)
{
    CHECK(status == BPFMAP_OK || reply.call == BPFMAP_PUT_IF_ABSENT, "status %d, %s", (int)status, bpfmap_explain(client, status));
    CHECK(reply.kind == BPFMAP_VALUE && reply.value_length == wanted.length &&
              memcmp(reply.value, wanted.bytes, wanted.length) == 0, "kind %d with %zu bytes came, not %zu bytes",
          (int)reply.kind, reply.value_length, wanted.length);
}

static void check_nothing(struct bpfmap_client *client, enum bpfmap_status status)
{
    CHECK_STATUS(client, reply.call == BPFMAP_PUT ? BPFMAP_OK : BPFMAP_ABSENT, status);
    CHECK(reply.kind == BPFMAP_NOTHING && reply.value_length == 0, "kind %d came, not nothing", (int)reply.kind);
}

static void check_refusal(struct bpfmap_client *client, enum bpfmap_status status, uint8_t number)
{
    CHECK_STATUS(client, BPFMAP_REFUSED, status);
    CHECK(reply.refusal.number == number && reply.refusal.place == 0, "refused %d, not %d", reply.refusal.number, number);
}

static struct bpfmap_program program_of(const uint8_t *code, size_t length, uint16_t window)
{
    return bpfmap_program_of(bpfmap_windows(64, window, window, window), bpfmap_bytes(code, length));
}

/* What is longer than a version's longest value is refused before it is sent, and so is a program. */
static void limits_are_those_of_the_version(struct bpfmap_client *client, size_t value, size_t program)
{
    static const uint8_t code[BPFMAP_PROGRAM_BYTES + 8];
    struct bpfmap_program whole = program_of(code, program / 8 * 8 + 8, 0);
    struct bpfmap_program broken = program_of(code, program + (program % 8 ? 2 : 1), 0), zero = bpfmap_numbered(client, 0);
    check_nothing(client, bpfmap_put(client, name(), value_of(value), &reply));
    check_value(client, bpfmap_get(client, name(), &reply), value_of(value));
    check_value(client, bpfmap_remove(client, name(), &reply), value_of(value));
    check_refusal(client, bpfmap_put(client, name(), value_of(value + 1), &reply), 1);
    check_refusal(client, bpfmap_replace_if(client, name(), value_of(value + 1), value_of(1), &reply), 1);
    check_refusal(client, bpfmap_replace_if(client, name(), value_of(1), value_of(value + 1), &reply), 1);
    check_refusal(client, bpfmap_compute(client, name(), &zero, value_of(value + 1), &reply), 1);
    check_refusal(client, bpfmap_register(client, &whole, &reply), 12);
    check_refusal(client, bpfmap_register(client, &broken, &reply), 11);
}

/* Calls whose old value version 1 does not carry are made all the same. */
static void calls_are_made_all_the_same(size_t length)
{
    struct bpfmap_span value = value_of(length), other = bpfmap_text("x");
    check_nothing(&new, bpfmap_put(&new, name(), value, &reply));
    check_refusal(&old, bpfmap_get(&old, name(), &reply), 65);
    check_refusal(&old, bpfmap_put_if_absent(&old, name(), other, &reply), 65);
    check_value(&new, bpfmap_get(&new, name(), &reply), value);
    check_refusal(&old, bpfmap_put(&old, name(), other, &reply), 65);
    check_value(&new, bpfmap_put(&new, name(), value, &reply), other);
    check_refusal(&old, bpfmap_replace(&old, name(), other, &reply), 65);
    check_value(&old, bpfmap_get(&old, name(), &reply), other);
    check_value(&new, bpfmap_put(&new, name(), value, &reply), other);
    check_refusal(&old, bpfmap_remove(&old, name(), &reply), 65);
    check_nothing(&old, bpfmap_get(&old, name(), &reply));
}

enum { COPY_BYTES = 16 * (BPFMAP_VALUE_BYTES / 8) + 16 };

/* Writes a program that answers a window's bytes: the window of the register from, whose length is in the register length. Version
 * 1 refuses it, so the program that is returned has the number that version 2 gave it. */
static uint64_t register_copy_of(uint8_t *code, int from, int length)
{
    struct bpfmap_program copy;
    uint8_t end[16] = {0xbf, (uint8_t)(length << 4), 0, 0, 0, 0, 0, 0, 0x95}; /* mov64 r0, rLENGTH; exit */
    for (int at = 0; at < BPFMAP_VALUE_BYTES; at += 8) { /* ldd r0, [rFROM+at]; stxd [r4+at], r0 */
        uint8_t units[16] = {0x79, (uint8_t)(from << 4), (uint8_t)at, (uint8_t)(at >> 8), 0, 0, 0, 0,
                             0x7b, 0x04, (uint8_t)at, (uint8_t)(at >> 8)};
        memcpy(code + 2 * at, units, sizeof units);
    }
    memcpy(code + 2 * BPFMAP_VALUE_BYTES, end, sizeof end);
    copy = program_of(code, COPY_BYTES, BPFMAP_VALUE_BYTES);
    check_refusal(&old, bpfmap_register(&old, &copy, &reply), 47);
    CHECK_STATUS(&new, BPFMAP_OK, bpfmap_register(&new, &copy, &reply));
    return reply.number;
}

/* A walk by this program and argument over the one entry: an Item with the argument as its value, and the counts. */
static void check_walk(struct bpfmap_client *client, uint64_t number, struct bpfmap_span arg)
{
    struct bpfmap_program take = bpfmap_numbered(client, number);
    CHECK_STATUS(client, BPFMAP_OK, bpfmap_begin_for_each(client, &take, arg, 0));
    CHECK_STATUS(client, BPFMAP_OK, bpfmap_receive(client, &reply));
    CHECK(reply.kind == BPFMAP_ITEM && reply.value_length == arg.length && memcmp(reply.value, arg.bytes, arg.length) == 0,
          "kind %d with %zu bytes came, not an Item", (int)reply.kind, reply.value_length);
    CHECK_STATUS(client, BPFMAP_END, bpfmap_receive(client, &reply));
    CHECK(reply.kind == BPFMAP_COUNTS && reply.scanned == 1 && reply.given == 1, "a walk has other counts");
}

/* A program's long answer stands, and a walk with an item that is too long is one refusal. */
static void programs_and_walks(void)
{
    static uint8_t copy_code[COPY_BYTES], take_code[COPY_BYTES];
    uint64_t copy_number = register_copy_of(copy_code, 2, 7), take_number = register_copy_of(take_code, 3, 8);
    struct bpfmap_program new_take = program_of(take_code, COPY_BYTES, BPFMAP_VALUE_BYTES);
    struct bpfmap_program take = bpfmap_numbered(&old, take_number), copy = bpfmap_numbered(&old, copy_number);
    struct bpfmap_span value = value_of(BPFMAP_VALUE_BYTES), other = value_of(BPFMAP_VALUE_BYTES_1);
    check_value(&new, bpfmap_compute(&new, name(), &new_take, value, &reply), value);
    check_refusal(&old, bpfmap_compute_if_absent(&old, name(), &take, other, &reply), 65);
    check_value(&old, bpfmap_merge(&old, name(), other, &take, &reply), other);
    check_walk(&old, take_number, other);
    check_walk(&new, take_number, value);
    CHECK_STATUS(&new, BPFMAP_OK, bpfmap_replace_all(&new, &new_take, value, &reply));
    CHECK_STATUS(&old, BPFMAP_OK, bpfmap_begin_for_each(&old, &copy, bpfmap_none(), 0));
    check_refusal(&old, bpfmap_receive(&old, &reply), 65);
    CHECK_STATUS(&old, BPFMAP_OK, bpfmap_begin_search(&old, &copy, bpfmap_none(), 0));
    check_refusal(&old, bpfmap_receive(&old, &reply), 65);
    CHECK_STATUS(&old, BPFMAP_OK, bpfmap_count(&old, &reply));
    CHECK(reply.scanned == 1, "%llu entries", (unsigned long long)reply.scanned);
}

/* A pipeline of which every second answer is refused: all come, in order. */
static void pipeline_goes_on(void)
{
    struct bpfmap_request get = {.call = BPFMAP_GET, .key = name()}, absent = {.call = BPFMAP_GET, .key = bpfmap_text("absent")};
    for (int i = 0; i < MANY; i++) {
        CHECK_STATUS(&old, BPFMAP_OK, bpfmap_send(&old, &get));
        CHECK_STATUS(&old, BPFMAP_OK, bpfmap_send(&old, &absent));
    }
    for (int i = 0; i < MANY; i++) {
        check_refusal(&old, bpfmap_receive(&old, &reply), 65);
        check_nothing(&old, bpfmap_receive(&old, &reply));
    }
    CHECK_STATUS(&old, BPFMAP_NOT_ASKED, bpfmap_receive(&old, &reply));
}

int main(void)
{
    for (size_t i = 0; i < sizeof longest; i++)
        longest[i] = (uint8_t)(i % 251);
    start_server();
    connect_by_version(&old, 1);
    connect_to_server(&new);
    limits_are_those_of_the_version(&old, BPFMAP_VALUE_BYTES_1, BPFMAP_PROGRAM_BYTES_1);
    limits_are_those_of_the_version(&new, BPFMAP_VALUE_BYTES, BPFMAP_PROGRAM_BYTES);
    calls_are_made_all_the_same(LEAST_LONG);
    calls_are_made_all_the_same(BPFMAP_VALUE_BYTES);
    programs_and_walks();
    pipeline_goes_on();
    bpfmap_close(&old);
    bpfmap_close(&new);
    CHECK_STATUS(&old, BPFMAP_REFUSED, bpfmap_connect_version(&old, "127.0.0.1", server_port, TIMEOUT, 3));
    CHECK(old.session.refusal.number == 64, "version 3 is refused with %d", old.session.refusal.number);
    printf("client c: two versions of the protocol on one map\n");
    return 0;
}
