/* Version vector: the value is eight counts, one of each replica, and the argument another such vector. Each count becomes the
 * greater of the two, so vectors may be merged in any order, and twice.
 *
 * sizes: --key 64 --old 64 --arg 64 --result 64
 * run: --with-old 03000000000000000100000000000000 --with-arg 020000000000000004000000000000000700000000000000
 * answer: bytes 03 00 00 00 00 00 00 00 04 00 00 00 00 00 00 00 07 00 00 00 00 00 00 00 00 00 00 00 00 00 00 00 00 00 00 00 00 00 00 00 00 00 00 00 00 00 00 00 00 00 00 00 00 00 00 00 00 00 00 00 00 00 00 00 */
#include "bpfmap.h"

PROGRAM
{
    UNROLL
    for (u64 i = 0; i < 64; i += 8) {
        u64 kept = load64(old, i);
        u64 given = load64(arg, i);
        store64(result, i, given > kept ? given : kept);
    }
    return 64;
}
