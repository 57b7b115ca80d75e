/* Mistake: an atomic addition. A call on an entry has it alone anyway.
 *
 * sizes: --key 64 --old 8 --arg 8 --result 8 */
#include "bpfmap.h"

PROGRAM
{
#ifdef MENDED
    store64(result, 0, load64(old, 0) + load64(arg, 0));
#else
    store64(result, 0, load64(old, 0));
    __sync_fetch_and_add((u64 *)result, load64(arg, 0));
#endif
    return 8;
}
