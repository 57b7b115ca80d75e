/* Mistake: an address is taken from the value. What is loaded there is a number.
 *
 * sizes: --key 64 --old 16 --arg 8 --result 1 */
#include "bpfmap.h"

PROGRAM
{
#ifdef MENDED
    u64 next = load64(old, 0);
    MASK(next, 15);
    store8(result, 0, load8(old, next));
#else
    const u8 *next = (const u8 *)load64(old, 0);
    store8(result, 0, load8(next, 0));
#endif
    return 1;
}
