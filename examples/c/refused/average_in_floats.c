/* Mistake: floating point. BPF has none, so the compiler calls a library.
 *
 * sizes: --key 64 --old 16 --arg 8 --result 16 */
#include "bpfmap.h"

PROGRAM
{
    u64 sum = load64(old, 0) + load64(arg, 0);
    u64 count = load64(old, 8) + 1;
    store64(result, 0, sum);
#ifdef MENDED
    store64(result, 8, count ? sum / count : 0);
#else
    store64(result, 8, (double)sum / count + 0.5);
#endif
    return 16;
}
