/* Mistake: the new number is returned, in place of how many bytes it has.
 *
 * sizes: --key 64 --old 8 --arg 8 --result 8 */
#include "bpfmap.h"

PROGRAM
{
    u64 sum = load64(old, 0) + load64(arg, 0);
#ifdef MENDED
    store64(result, 0, sum);
    return 8;
#else
    return sum;
#endif
}
