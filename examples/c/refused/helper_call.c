/* Mistake: a helper of the kernel is called. There are no calls.
 *
 * sizes: --key 64 --old 8 --arg 8 --result 8 */
#include "bpfmap.h"

PROGRAM
{
#ifdef MENDED
    store64(result, 0, load64(arg, 0));
#else
    u64 (*const ktime_get_ns)(void) = (u64 (*)(void))5;
    store64(result, 0, ktime_get_ns());
#endif
    return 8;
}
