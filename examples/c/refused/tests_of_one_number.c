/* Refused: the compiler makes one choice of the three tests of one number. The ways share a block, and one jumps back to it.
 *
 * sizes: --key 64 --old 24 --arg 1 --result 24
 * listing: none, since number and unit say enough */
#include "bpfmap.h"

PROGRAM
{
    u64 place = load8(arg, 0);
    UNROLL
    for (u64 i = 0; i < 3; i++) {
#ifdef MENDED
        u64 kept = load64(old, 8 * i);
        store64(result, 8 * i, place == i ? 0 : kept);
#else
        if (place == i)
            store64(result, 8 * i, 0);
        else
            store64(result, 8 * i, load64(old, 8 * i));
#endif
    }
    return 24;
}
