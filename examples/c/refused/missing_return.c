/* Mistake: the answer's length is not returned.
 *
 * sizes: --key 64 --old 8 --arg 8 --result 8 */
#include "bpfmap.h"

PROGRAM
{
    store64(result, 0, load64(old, 0) + load64(arg, 0));
#ifdef MENDED
    return 8;
#endif
}
