/* Mistake: an array counts from what happens to lie in it.
 *
 * sizes: --key 64 --old 8 --arg 1 --result 1 */
#include "bpfmap.h"

PROGRAM
{
#ifdef MENDED
    u8 counts[8] = {0};
#else
    u8 counts[8];
#endif
    UNROLL
    for (u64 i = 0; i < 8; i++) {
        u64 place = load8(old, i);
        MASK(place, 7);
        counts[place]++;
    }
    u64 asked = load8(arg, 0);
    MASK(asked, 7);
    store8(result, 0, counts[asked]);
    return 1;
}
