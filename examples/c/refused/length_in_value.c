/* Mistake: a length that the value itself has is trusted.
 *
 * sizes: --key 64 --old 8 --arg 8 --result 1 */
#include "bpfmap.h"

PROGRAM
{
    u64 length = load8(old, 0);
#ifdef MENDED
    BOUND(length, 7);
#endif
    store8(result, 0, load8(old, length));
    return 1;
}
