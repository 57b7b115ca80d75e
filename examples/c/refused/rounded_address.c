/* Mistake: an address is rounded down by `and`. Only sums and differences of an address point into a window.
 *
 * sizes: --key 64 --old 16 --arg 1 --result 8 */
#include "bpfmap.h"

PROGRAM
{
    u64 place = load8(arg, 0);
    MASK(place, 15);
#ifdef MENDED
    u64 rounded = place;
    MASK(rounded, 8);
    store64(result, 0, load64(old, rounded));
#else
    store64(result, 0, load64((const u8 *)((u64)(old + place) & ~7ULL), 0));
#endif
    return 8;
}
