/* Mistake: the result is taken for the value in place. It has no byte until one is stored.
 *
 * sizes: --key 64 --old 8 --arg 8 --result 8 */
#include "bpfmap.h"

PROGRAM
{
#ifdef MENDED
    store64(result, 0, load64(old, 0) + load64(arg, 0));
#else
    store64(result, 0, load64(result, 0) + load64(arg, 0));
#endif
    return 8;
}
