/* A program of examples/c on the host: made-up inputs, each with its answer, as `bpfmap run` takes and prints them.
 *
 *     gcc -DPROGRAM_FILE='"counter.c"' host.c -o host && ./host 200 --key 64 --old 8 --arg 8 --result 8
 *
 * Each line is an input's words, a bar and the answer's line. The sequence is fixed. */
#include <stdio.h>
#include <stdlib.h>
#include <string.h>

#include PROGRAM_FILE

enum { KEY, OLD, ARG, RESULT, WINDOWS };

enum { KEY_BYTES = 64, VALUE_BYTES = 1024 };

static const char *const names[] = {"--key", "--old", "--arg", "--result"};

static int sizes[WINDOWS];

static u64 state = 2463534242;

/* The next number of the sequence (xorshift of 64 bits). */
static u64 next(void)
{
    state ^= state << 13;
    state ^= state >> 7;
    state ^= state << 17;
    return state;
}

/* One of the numbers at which programs have their borders, or any. */
static u64 made_up(void)
{
    switch (next() % 5) {
    case 0:
        return 0;
    case 1:
        return ~0ULL - next() % 3;
    case 2:
        return next();
    default:
        return next() % 100;
    }
}

/* Fills a window, the other bytes with zeros, and says how many bytes it has: all, as a rule. */
static s64 fill(u8 window[VALUE_BYTES], int size)
{
    s64 length = next() % 4 ? size : (s64)(next() % (size + 1));
    memset(window, 0, VALUE_BYTES);
    for (int i = 0; i < size; i += 8) {
        u64 word = made_up();
        memcpy(window + i, &word, 8);
    }
    memset(window + length, 0, VALUE_BYTES - length);
    return length;
}

/* Some words of the argument are those of the old value, so that versions agree. */
static void repeat(u8 arg[VALUE_BYTES], s64 length, const u8 old[VALUE_BYTES])
{
    for (s64 i = 0; i + 8 <= length; i += 8)
        if (next() % 3 == 0)
            memcpy(arg + i, old + i, 8);
}

static void print_words(const char *name, const u8 *window, s64 length)
{
    if (length < 0)
        return;
    printf("--with%s=", name + 1);
    for (s64 i = 0; i < length; i++)
        printf("%02x", window[i]);
    printf(" ");
}

static void print_answer(const u8 *result, s64 length)
{
    printf(length < 0 ? "|nothing" : "|bytes");
    for (s64 i = 0; i < length; i++)
        printf(" %02x", result[i]);
    printf("\n");
}

static void run_once(void)
{
    static u8 windows[WINDOWS][VALUE_BYTES];
    s64 lengths[RESULT];
    for (int i = KEY; i < RESULT; i++)
        lengths[i] = fill(windows[i], sizes[i]);
    repeat(windows[ARG], lengths[ARG], windows[OLD]);
    for (int i = OLD; i < RESULT; i++)
        if (next() % 5 == 0) {
            lengths[i] = -1;
            memset(windows[i], 0, VALUE_BYTES);
        }
    memset(windows[RESULT], 0xee, VALUE_BYTES);
    for (int i = KEY; i < RESULT; i++)
        print_words(names[i], windows[i], lengths[i]);
    s64 answer = program_body(windows[KEY], windows[OLD], windows[ARG], windows[RESULT], lengths[KEY], lengths[OLD],
                              lengths[ARG]);
    print_answer(windows[RESULT], answer);
}

int main(int argc, char **argv)
{
    if (argc != 2 + 2 * WINDOWS)
        return 2;
    for (int i = 0; i < WINDOWS; i++) {
        sizes[i] = atoi(argv[3 + 2 * i]);
        if (strcmp(argv[2 + 2 * i], names[i]) != 0 || sizes[i] < 0 || sizes[i] > (i == KEY ? KEY_BYTES : VALUE_BYTES))
            return 2;
    }
    for (int left = atoi(argv[1]); left > 0; left--)
        run_once();
    return 0;
}
