/* Mistake: the answer has 16 bytes, of which only the first 12 are stored.
 *
 * sizes: --key 64 --old 16 --arg 4 --result 16 */
#include "bpfmap.h"

PROGRAM
{
    store64(result, 0, load64(old, 0));
#ifdef MENDED
    store64(result, 8, load32(arg, 0));
#else
    store32(result, 8, load32(arg, 0));
#endif
    return 16;
}
