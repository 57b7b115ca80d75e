/* Refused: the compiler knows that 8 and sixteen times a count have no bit in common, and joins them by `or`. Of that the verifier
 * knows no more than the highest bit.
 *
 * sizes: --key 64 --old 8 --arg 1 --result 72
 * listing: none, since number and unit say enough */
#include "bpfmap.h"

PROGRAM
{
    UNROLL
    for (u64 i = 0; i < 72; i += 8)
        store64(result, i, load64(old, 0));
    u64 count = load8(arg, 0);
    BOUND(count, 4);
#ifdef MENDED
    u64 length = 8 + count * 16;
    BOUND(length, 72);
    return length;
#else
    return 8 + count * 16;
#endif
}
