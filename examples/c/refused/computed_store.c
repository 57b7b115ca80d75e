/* Mistake: the list's bytes are stored at a computed place. Such a store counts as none of the answer's bytes.
 *
 * sizes: --key 64 --old 8 --arg 1 --result 8 */
#include "bpfmap.h"

PROGRAM
{
#ifdef MENDED
    store64(result, 0, load64(old, 0));
#endif
    u64 length = load8(old, 0);
    BOUND(length, 6);
    store8(result, 1 + length, load8(arg, 0));
    store8(result, 0, length + 1);
    return 8;
}
