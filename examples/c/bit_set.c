/* sizes: --key 64 --old 32 --arg 1 --result 32
 *
 * Bit set: the value is 256 bits, the argument the number of the bit that is set.
 *
 * run: --with-old 01 --with-arg 0a
 * answer: bytes 01 04 00 00 00 00 00 00 00 00 00 00 00 00 00 00 00 00 00 00 00 00 00 00 00 00 00 00 00 00 00 00 */
#include "bpfmap.h"

PROGRAM
{
    UNROLL
    for (u64 i = 0; i < 32; i += 8)
        store64(result, i, load64(old, i));
    u64 number = load8(arg, 0);
    u64 place = number / 8;
    MASK(place, 31);
    store8(result, place, load8(result, place) | 1 << number % 8);
    return 32;
}
