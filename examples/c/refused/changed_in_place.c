/* Mistake: the old value is changed where it lies.
 *
 * sizes: --key 64 --old 8 --arg 8 --result 8 */
#include "bpfmap.h"

PROGRAM
{
#ifdef MENDED
    store64(result, 0, load64(old, 0) + 1);
#else
    store64((u8 *)old, 0, load64(old, 0) + 1);
#endif
    return 8;
}
