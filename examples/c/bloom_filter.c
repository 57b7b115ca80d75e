/* Bloom filter: the value is 512 bits and a number, which is 1 where the last item was in the set before, else 0. The argument
 * is an item of 8 bytes, and one byte: 1 to add the item, 0 to test for it alone. An item that was added is always found;
 * one that was not is found where others have set its three bits.
 *
 * sizes: --key 64 --old 72 --arg 9 --result 72
 * run: --with-arg 2a0000000000000001
 * answer: bytes 80 00 00 00 00 00 00 00 00 00 00 00 00 00 00 80 00 00 00 00 00 00 00 00 00 00 00 00 00 00 40 00 00 00 00 00 00 00 00 00 00 00 00 00 00 00 00 00 00 00 00 00 00 00 00 00 00 00 00 00 00 00 00 00 00 00 00 00 00 00 00 00
 * run: --with-old 8000000000000000000000000000008000000000000000000000000000004000 --with-arg 2a0000000000000000
 * answer: bytes 80 00 00 00 00 00 00 00 00 00 00 00 00 00 00 80 00 00 00 00 00 00 00 00 00 00 00 00 00 00 40 00 00 00 00 00 00 00 00 00 00 00 00 00 00 00 00 00 00 00 00 00 00 00 00 00 00 00 00 00 00 00 00 00 01 00 00 00 00 00 00 00
 * run: --with-old 8000000000000000000000000000008000000000000000000000000000004000 --with-arg 2b0000000000000000
 * answer: bytes 80 00 00 00 00 00 00 00 00 00 00 00 00 00 00 80 00 00 00 00 00 00 00 00 00 00 00 00 00 00 40 00 00 00 00 00 00 00 00 00 00 00 00 00 00 00 00 00 00 00 00 00 00 00 00 00 00 00 00 00 00 00 00 00 00 00 00 00 00 00 00 00 */
#include "bpfmap.h"

PROGRAM
{
    UNROLL
    for (u64 i = 0; i < 64; i += 8)
        store64(result, i, load64(old, i));
    u64 adds = load8(arg, 8) & 1;
    u64 hash = load64(arg, 0) * 0x9e3779b97f4a7c15ULL;
    hash = (hash ^ hash >> 29) * 0xbf58476d1ce4e5b9ULL;
    hash ^= hash >> 32;
    u64 found = 1;
    UNROLL
    for (u64 i = 0; i < 3; i++) {
        u64 number = hash >> 9 * i & 511;
        u64 place = number / 8;
        MASK(place, 63);
        u64 bits = load8(result, place);
        found &= bits >> number % 8;
        store8(result, place, bits | adds << number % 8);
    }
    store64(result, 64, found);
    return 72;
}
