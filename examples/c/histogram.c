/* Histogram: the value is eight counts of 4 bytes, the argument a number of 8 bytes. The count of its tens rises: the first
 * counts 0 to 9, the last everything from 70 on.
 *
 * sizes: --key 64 --old 32 --arg 8 --result 32
 * run: --with-old 01000000 --with-arg 1900000000000000
 * answer: bytes 01 00 00 00 00 00 00 00 01 00 00 00 00 00 00 00 00 00 00 00 00 00 00 00 00 00 00 00 00 00 00 00 */
#include "bpfmap.h"

PROGRAM
{
    UNROLL
    for (u64 i = 0; i < 32; i += 8)
        store64(result, i, load64(old, i));
    u64 bucket = load64(arg, 0) / 10;
    BOUND(bucket, 7);
    store32(result, bucket * 4, load32(result, bucket * 4) + 1);
    return 32;
}
