/* Refused: the array lies at an address that is divisible by 8 and the place is below 8, so the compiler joins the two by `or`. An
 * address that was or-ed is a number.
 *
 * sizes: --key 64 --old 8 --arg 1 --result 8 */
#include "bpfmap.h"

PROGRAM
{
    u8 flags[8] = {0};
    u64 place = load8(arg, 0);
#ifdef MENDED
    MASK(place, 7);
    flags[place] = 1;
#else
    flags[place & 7] = 1;
#endif
    store64(result, 0, load64(old, 0) | load64(flags, 0));
    return 8;
}
