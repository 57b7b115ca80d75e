/* Refused: a loop with a `break` at a number that is not known is not written out, and jumps back.
 *
 * sizes: --key 64 --old 8 --arg 1 --result 8
 * listing: none, since number and unit say enough */
#include "bpfmap.h"

PROGRAM
{
    u64 count = load8(arg, 0);
    u64 sum = 0;
    UNROLL
    for (u64 i = 0; i < 8; i++) {
#ifdef MENDED
        sum += i < count ? load8(old, i) : 0;
#else
        if (i >= count)
            break;
        sum += load8(old, i);
#endif
    }
    store64(result, 0, sum);
    return 8;
}
