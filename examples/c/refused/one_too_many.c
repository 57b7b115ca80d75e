/* Mistake: the loop makes one turn too many.
 *
 * sizes: --key 64 --old 8 --arg 8 --result 8 */
#include "bpfmap.h"

PROGRAM
{
    u64 sum = 0;
    UNROLL
#ifdef MENDED
    for (u64 i = 0; i < 8; i++)
#else
    for (u64 i = 0; i <= 8; i++)
#endif
        sum += load8(old, i);
    store64(result, 0, sum);
    return 8;
}
