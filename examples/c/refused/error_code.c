/* Mistake: an error is answered by a negative number of its own, as in the kernel. NOTHING is the only one.
 *
 * sizes: --key 64 --old 8 --arg 8 --result 8 */
#include "bpfmap.h"

PROGRAM
{
    store64(result, 0, load64(arg, 0));
    if (arg_length < 8)
#ifdef MENDED
        ANSWER(NOTHING);
#else
        return -22;
#endif
    return 8;
}
