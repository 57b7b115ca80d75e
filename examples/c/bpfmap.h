/* Programs for bpfmap in C. docs/C.md says how to use this; examples/c/build makes hex of a program.
 *
 *     #include "bpfmap.h"
 *
 *     PROGRAM
 *     {
 *         store64(result, 0, load64(old, 0) + load64(arg, 0));
 *         return 8;
 *     }
 *
 * The body finds these parameters:
 *
 *     key, old, arg                          windows that may be read: zeros behind the value's own bytes
 *     result                                 the window that may be written, and read where it was written
 *     key_length, old_length, arg_length     bytes of each; -1 for an old value or argument that is absent
 *     NOW                                    the argument's first 8 bytes: the time, if the caller or the server puts it there
 *
 * It returns NOTHING, or how many of the result's first bytes are the answer. Each of them must have been written.
 *
 * The same file compiles for the host, where the windows are arrays: so an answer can be compared. */
#ifndef BPFMAP_H
#define BPFMAP_H

typedef unsigned char u8;
typedef unsigned short u16;
typedef unsigned int u32;
typedef unsigned long long u64;
typedef signed char s8;
typedef short s16;
typedef int s32;
typedef long long s64;

#define NOTHING (-1)

#define ALWAYS_INLINE static inline __attribute__((always_inline))

/* ---- the program */

/* For BPF the lengths are in r6, r7 and r8 at entry, from which the one assembler statement takes them before anything else
 * is done with those registers. */
#define UNUSED __attribute__((unused))
#define BODY_PARAMETERS                                                                                                \
    const u8 *key UNUSED, const u8 *old UNUSED, const u8 *arg UNUSED, u8 *result UNUSED, s64 key_length UNUSED,        \
        s64 old_length UNUSED, s64 arg_length UNUSED

#ifdef __bpf__
#define PROGRAM                                                                                                        \
    ALWAYS_INLINE s64 program_body(BODY_PARAMETERS);                                                                   \
    s64 program(const u8 *key, const u8 *old, const u8 *arg, u8 *result)                                               \
    {                                                                                                                  \
        register s64 key_length asm("r6");                                                                             \
        register s64 old_length asm("r7");                                                                             \
        register s64 arg_length asm("r8");                                                                             \
        asm volatile("" : "=r"(key_length), "=r"(old_length), "=r"(arg_length));                                       \
        return program_body(key, old, arg, result, key_length, old_length, arg_length);                               \
    }                                                                                                                  \
    ALWAYS_INLINE s64 program_body(BODY_PARAMETERS)
#else
#define PROGRAM s64 program_body(BODY_PARAMETERS)
#endif

/* Each turn of the loop behind it is written out: no jump may lead back. */
#ifdef __clang__
#define UNROLL _Pragma("clang loop unroll(full)")
#else
#define UNROLL
#endif

/* ---- loads and stores of numbers, little-endian, at an offset in bytes from the window's first */

/* BPF loads from any address; the types for the host say that too. */
#ifdef __bpf__
#define AT_ANY_ADDRESS __attribute__((may_alias))
#else
#define AT_ANY_ADDRESS __attribute__((may_alias, aligned(1)))
#endif

typedef u8 AT_ANY_ADDRESS stored8;
typedef u16 AT_ANY_ADDRESS stored16;
typedef u32 AT_ANY_ADDRESS stored32;
typedef u64 AT_ANY_ADDRESS stored64;

#define DEFINE_ACCESS(bits)                                                                                            \
    ALWAYS_INLINE u##bits load##bits(const void *window, u64 offset)                                                   \
    {                                                                                                                  \
        return *(const stored##bits *)((const u8 *)window + offset);                                                   \
    }                                                                                                                  \
    ALWAYS_INLINE void store##bits(void *window, u64 offset, u##bits value)                                            \
    {                                                                                                                  \
        *(stored##bits *)((u8 *)window + offset) = value;                                                              \
    }

DEFINE_ACCESS(8)
DEFINE_ACCESS(16)
DEFINE_ACCESS(32)
DEFINE_ACCESS(64)

/* The time, if the argument begins with it: a script of the Redis port whose first line ends with `with-now` gets the server's time there, in
 * milliseconds since the epoch, and the argument's own bytes after these eight. A caller may put a time of its own there. */
#define NOW load64(arg, 0)

/* ---- what keeps the compiler from taking away what the verifier has to see */

/* The value is used here, and may be any from here on: what the compiler knew of it is forgotten. An array whose address goes through
 * this before it is filled stays on the stack, even if all its contents are constants. */
#define OPAQUE(value) asm volatile("" : "+r"(value))

/* BOUND and MASK take a variable of 64 bits and a constant from 0 to 0x7fffffff, or do not compile, neither for BPF nor for the
 * host: the instructions take the whole register, and extend the sign of a constant of 32 bits. */
#define HAS_64_BITS(value)                                                                                             \
    (sizeof(value) == 8 && _Generic((value), u64: 1, s64: 1, unsigned long: 1, long: 1, default: 0))
#define CHECK_OPERANDS(name, value, constant)                                                                          \
    _Static_assert(HAS_64_BITS(value), name " needs a number of 64 bits");                                             \
    _Static_assert((u64)(constant) <= 0x7fffffff, name " needs a constant from 0 to 0x7fffffff")

/* Makes a variable at most this constant, as an unsigned number. The test and what it bounds are one register. */
#ifdef __bpf__
#define BOUND(value, most)                                                                                             \
    do {                                                                                                               \
        CHECK_OPERANDS("BOUND", value, most);                                                                          \
        asm volatile("if %0 <= %1 goto +1\n\t%0 = %1" : "+r"(value) : "i"((u64)(most)));                               \
    } while (0)
#else
#define BOUND(value, most)                                                                                             \
    do {                                                                                                               \
        CHECK_OPERANDS("BOUND", value, most);                                                                          \
        __typeof__(value) *const bounded_by_header = &(value);                                                         \
        if ((u64)*bounded_by_header > (u64)(most))                                                                     \
            *bounded_by_header = (u64)(most);                                                                          \
    } while (0)
#endif

/* Keeps the bits of a variable that this constant has, even if the compiler knows that there are no others. The compiler doesn't know
 * the bound, so it adds such a place to an array's address, and doesn't join the two by `or`. */
#ifdef __bpf__
#define MASK(value, bits)                                                                                              \
    do {                                                                                                               \
        CHECK_OPERANDS("MASK", value, bits);                                                                           \
        asm volatile("%0 &= %1" : "+r"(value) : "i"((u64)(bits)));                                                     \
    } while (0)
#else
#define MASK(value, bits)                                                                                              \
    do {                                                                                                               \
        CHECK_OPERANDS("MASK", value, bits);                                                                           \
        (value) &= (u64)(bits);                                                                                        \
    } while (0)
#endif

/* Returns this number from an EXIT of its own, so that what was written on this way counts for this answer alone. */
#ifdef __bpf__
#define ANSWER(length)                                                                                                 \
    do {                                                                                                               \
        register s64 answer_of_header asm("r0") = (length);                                                            \
        asm volatile("exit" : : "r"(answer_of_header) : "memory");                                                     \
        __builtin_unreachable();                                                                                       \
    } while (0)
#else
#define ANSWER(length) return (length)
#endif

#endif
