/* A map that threads share, to compare ours with. It has 64 stripes by the same hash, each with a lock of the same kind: a word
   alone in 128 bytes, taken by a compare-exchange and released by an exchange. A thread that waits yields ten times, then
   sleeps between tries, for as long as ours does; in our map it also goes first if it has waited for long. In a stripe, entries are chained in
   buckets by a second hash, and there are never more entries than buckets. Each entry is allocated in its exact size, and a call
   copies just the bytes of its answer. `merge` adds the numbers, without a program; `run` merges by the program of the sum, which the switch of
   interpreter.c runs without any test. Numbers have the low byte first, as on x86-64.
   table KIND KEYS THREADS COUNT does what `bench calls` does with these words, and prints the same. */
#define LIBRARY
#include "interpreter.c"
#include <endian.h>
#include <pthread.h>
#include <sched.h>
#include <stdalign.h>
#include <stdatomic.h>
#include <stdbool.h>
#include <stdint.h>
#include <stdio.h>
#include <stdlib.h>
#include <string.h>
#include <time.h>

enum { STRIPES = 64, STRIPE_BYTES = 128, FIRST_BUCKETS = 8, KEY_BYTES = 64, VALUE_BYTES = 1024, MOST_THREADS = 63 };

/* a thread that waits yields this often, and then sleeps for these nanoseconds, and again for the first of them */
enum { YIELDS = 10, NAPS = 3 };
static const long nap_nanos[NAPS] = {50000, 600000, 1500000};

/* a thread goes on by this many scattered keys from one call to the next */
enum { STEP = 7919 };

/* key number 1 of the scattered ones, as a number; it also mixes hashes */
#define GOLDEN 0x9e3779b97f4a7c15

struct key {
    uint8_t size, bytes[KEY_BYTES];
};

struct value {
    uint16_t size;
    uint8_t bytes[VALUE_BYTES];
};

/* the bytes are the key's and then the value's */
struct entry {
    struct entry *next;
    uint32_t hash;
    uint16_t key_size, value_size;
    uint8_t bytes[];
};

/* the word is 1 while a thread holds the stripe, else 0; the number of buckets is a power of two, and the mask one less */
struct stripe {
    alignas(STRIPE_BYTES) _Atomic uint64_t word;
    alignas(STRIPE_BYTES) struct entry **buckets;
    size_t mask, count;
};

enum kind { GET, PUT, MERGE, RUN };

/* adds the argument to the old value; the answer has eight bytes */
static const struct insn sum_program[] = {
    {.code = LDXDW, .dst = 0, .src = 2}, {.code = LDXDW, .dst = 9, .src = 3}, {.code = ADD64X, .dst = 0, .src = 9},
    {.code = STXDW, .dst = 4, .src = 0}, {.code = MOV64K, .dst = 0, .imm = 8}, {.code = EXIT}};

/* all threads call this many keys, scattered or rising; or each calls one of its own, in stripes this far apart */
struct keys {
    uint64_t shared, apart;
    bool scattered;
};

struct work {
    enum kind kind;
    struct keys keys;
    uint64_t worker, count;
};

static struct stripe stripes[STRIPES];

/* the hash after four more bytes: each makes it 31 times the hash and the byte */
static uint32_t with_four(uint32_t hash, const uint8_t *bytes)
{
    return hash * 923521 + bytes[0] * 29791 + bytes[1] * 961 + bytes[2] * 31 + bytes[3];
}

/* the hash of all bytes but the last three at most */
static uint32_t hash_of_fours(const struct key *key)
{
    uint32_t hash = 1;
    for (size_t i = 0; i + 4 <= key->size; i += 4)
        hash = with_four(hash, key->bytes + i);
    return hash;
}

static struct stripe *stripe_of(const struct key *key)
{
    uint32_t hash = hash_of_fours(key);
    for (size_t i = key->size / 4 * 4; i < key->size; i++)
        hash = hash * 31 + key->bytes[i];
    return &stripes[hash % STRIPES];
}

/* the two halves of a product's 128 bits, joined by xor */
static uint64_t mixed(uint64_t hash, uint64_t word)
{
    unsigned __int128 product = (unsigned __int128)(hash ^ word) * GOLDEN;
    return (uint64_t)product ^ (uint64_t)(product >> 64);
}

/* a word of at most eight bytes */
static uint64_t word_of(const uint8_t *bytes, size_t size)
{
    uint64_t word = 0;
    memcpy(&word, bytes, size);
    return word;
}

/* the hash inside a stripe; it begins with digits of pi */
static uint32_t hash_of(const struct key *key)
{
    uint64_t hash = 0x243f6a8885a308d3 ^ key->size;
    size_t words = key->size / 8, rest = key->size % 8;
    for (size_t i = 0; i < words; i++)
        hash = mixed(hash, word_of(key->bytes + 8 * i, 8));
    return rest ? mixed(hash, word_of(key->bytes + 8 * words, rest)) : hash;
}

static bool try_take(struct stripe *stripe)
{
    uint64_t expected = 0;
    return atomic_compare_exchange_strong(&stripe->word, &expected, 1);
}

static __attribute__((noinline, cold)) void wait_for(struct stripe *stripe)
{
    for (unsigned rests = 0; !try_take(stripe); rests++) {
        if (rests < YIELDS) {
            sched_yield();
            continue;
        }
        unsigned naps = rests - YIELDS;
        nanosleep(&(struct timespec){.tv_nsec = nap_nanos[naps < NAPS ? naps : 0]}, NULL);
    }
}

static void take(struct stripe *stripe)
{
    if (!try_take(stripe))
        wait_for(stripe);
}

static void release(struct stripe *stripe)
{
    atomic_exchange(&stripe->word, 0);
}

static void *allocated(void *memory)
{
    if (!memory)
        abort();
    return memory;
}

static bool is_of(const struct entry *entry, const struct key *key, uint32_t hash)
{
    return entry->hash == hash && entry->key_size == key->size && !memcmp(entry->bytes, key->bytes, key->size);
}

/* the link to the key's entry, or to none at the end of its chain */
static struct entry **find(const struct stripe *stripe, const struct key *key, uint32_t hash)
{
    struct entry **link = &stripe->buckets[hash & stripe->mask];
    while (*link && !is_of(*link, key, hash))
        link = &(*link)->next;
    return link;
}

static void move(struct entry *entry, struct entry **buckets, size_t mask)
{
    while (entry) {
        struct entry *next = entry->next, **first = &buckets[entry->hash & mask];
        entry->next = *first;
        *first = entry;
        entry = next;
    }
}

/* doubles the number of buckets */
static void grow(struct stripe *stripe)
{
    size_t mask = 2 * stripe->mask + 1;
    struct entry **buckets = allocated(calloc(mask + 1, sizeof *buckets));
    for (size_t i = 0; i <= stripe->mask; i++)
        move(stripe->buckets[i], buckets, mask);
    free(stripe->buckets);
    stripe->buckets = buckets;
    stripe->mask = mask;
}

static struct entry *new_entry(const struct key *key, uint32_t hash, const struct value *value)
{
    struct entry *entry = allocated(malloc(sizeof *entry + key->size + value->size));
    *entry = (struct entry){.hash = hash, .key_size = key->size, .value_size = value->size};
    memcpy(entry->bytes, key->bytes, key->size);
    memcpy(entry->bytes + key->size, value->bytes, value->size);
    return entry;
}

/* a value of another size moves the entry */
static void set(struct entry **link, const void *bytes, size_t size)
{
    struct entry *entry = *link;
    if (entry->value_size != size) {
        entry = allocated(realloc(entry, sizeof *entry + entry->key_size + size));
        entry->value_size = size;
        *link = entry;
    }
    memcpy(entry->bytes + entry->key_size, bytes, size);
}

/* the number of a value of eight bytes, and 0 for others */
static uint64_t number_of(const uint8_t *bytes, size_t size)
{
    return size == 8 ? word_of(bytes, 8) : 0;
}

static void write_answer(struct value *answer, const void *bytes, size_t size)
{
    answer->size = size;
    memcpy(answer->bytes, bytes, size);
}

/* the value that the program gives takes the place of the old one, and is the answer */
static void run_program(struct entry **link, const struct value *value, struct value *answer)
{
    memcpy(key, (*link)->bytes, (*link)->key_size);
    memcpy(old, (*link)->bytes + (*link)->key_size, (*link)->value_size);
    memcpy(arg, value->bytes, value->size);
    answer->size = run(sum_program, sizeof sum_program / sizeof *sum_program, answer->bytes);
    set(link, answer->bytes, answer->size);
}

/* a call on a key that is there */
static void call_present(enum kind kind, struct entry **link, const struct value *value, struct value *answer)
{
    const uint8_t *old = (*link)->bytes + (*link)->key_size;
    size_t old_size = (*link)->value_size;
    if (kind == MERGE) {
        uint64_t sum = number_of(old, old_size) + number_of(value->bytes, value->size);
        set(link, &sum, sizeof sum);
        write_answer(answer, &sum, sizeof sum);
        return;
    }
    if (kind == RUN) {
        run_program(link, value, answer);
        return;
    }
    write_answer(answer, old, old_size);
    if (kind == PUT)
        set(link, value->bytes, value->size);
}

/* what Java's get, put and merge answer goes into the caller's buffer; false if they answer null */
static __attribute__((noinline)) bool call(enum kind kind, const struct key *key, const struct value *value,
                                           struct value *answer)
{
    uint32_t hash = hash_of(key);
    struct stripe *stripe = stripe_of(key);
    take(stripe);
    struct entry **link = find(stripe, key, hash);
    bool found = *link;
    if (found) {
        call_present(kind, link, value, answer);
    } else if (kind != GET) {
        *link = new_entry(key, hash, value);
        if (++stripe->count > stripe->mask + 1)
            grow(stripe);
    }
    release(stripe);
    if (!found && kind >= MERGE)
        write_answer(answer, value->bytes, value->size);
    return found || kind >= MERGE;
}

static void make_key(struct keys keys, uint64_t number, struct key *key)
{
    if (keys.apart) {
        key->size = 1;
        key->bytes[0] = (number * keys.apart + 33) % STRIPES;
        return;
    }
    uint64_t bytes = htobe64(keys.scattered ? number * GOLDEN : number);
    key->size = sizeof bytes;
    memcpy(key->bytes, &bytes, sizeof bytes);
}

/* the number of the key that the worker calls at this turn */
static uint64_t number_at(const struct work *work, uint64_t turn)
{
    uint64_t shared = work->keys.shared;
    if (work->keys.apart)
        return work->worker;
    uint64_t place = work->worker * (shared / 4) + turn;
    return (work->keys.scattered ? place * STEP : place) % shared;
}

static const struct value one = {.size = 8, .bytes = {1}};

static void *call_all(void *given)
{
    const struct work *work = given;
    struct key key;
    struct value answer;
    for (uint64_t turn = 0; turn < work->count; turn++) {
        make_key(work->keys, number_at(work, turn), &key);
        call(work->kind, &key, &one, &answer);
    }
    return NULL;
}

static uint64_t sum_of(struct keys keys, uint64_t count)
{
    uint64_t sum = 0;
    struct key key;
    struct value answer;
    for (uint64_t number = 0; number < count; number++) {
        make_key(keys, number, &key);
        if (call(GET, &key, NULL, &answer))
            sum += number_of(answer.bytes, answer.size);
    }
    return sum;
}

static void fill(struct keys keys, uint64_t count)
{
    struct key key;
    struct value answer;
    for (uint64_t number = 0; number < count; number++) {
        make_key(keys, number, &key);
        call(PUT, &key, &one, &answer);
    }
}

static void open_stripes(void)
{
    for (size_t i = 0; i < STRIPES; i++) {
        stripes[i].buckets = allocated(calloc(FIRST_BUCKETS, sizeof *stripes[i].buckets));
        stripes[i].mask = FIRST_BUCKETS - 1;
    }
}

static struct keys keys_named(const char *word)
{
    static const char scattered[] = "scattered=";
    size_t size = sizeof scattered - 1;
    if (!strcmp(word, "near"))
        return (struct keys){.apart = 1};
    if (!strcmp(word, "apart"))
        return (struct keys){.apart = 8};
    if (!strncmp(word, scattered, size))
        return (struct keys){.shared = strtoull(word + size, NULL, 10), .scattered = true};
    return (struct keys){.shared = strtoull(word, NULL, 10)};
}

static bool read_words(char **words, struct work *work, uint64_t *threads)
{
    static const char *const kinds[] = {"get", "put", "merge", "run"};
    int kind = 0;
    while (kind <= RUN && strcmp(words[1], kinds[kind]))
        kind++;
    work->kind = kind;
    work->keys = keys_named(words[2]);
    *threads = strtoull(words[3], NULL, 10);
    work->count = strtoull(words[4], NULL, 10);
    return kind <= RUN && (work->keys.apart || work->keys.shared) && *threads > 0 && *threads <= MOST_THREADS;
}

int main(int words, char **word)
{
    struct work plan = {0}, works[MOST_THREADS];
    pthread_t started[MOST_THREADS];
    uint64_t threads;
    if (words != 5 || !read_words(word, &plan, &threads)) {
        fprintf(stderr, "table get|put|merge|run KEYS|near|apart|scattered=KEYS THREADS COUNT\n");
        return 2;
    }
    open_stripes();
    uint64_t keys = plan.keys.apart ? threads : plan.keys.shared;
    fill(plan.keys, keys);
    for (uint64_t i = 0; i < threads; i++) {
        works[i] = plan;
        works[i].worker = i;
        if (pthread_create(&started[i], NULL, call_all, &works[i]))
            abort();
    }
    for (uint64_t i = 0; i < threads; i++)
        pthread_join(started[i], NULL);
    printf("the sum of the values is %llu\n", (unsigned long long)sum_of(plan.keys, keys));
    return 0;
}
