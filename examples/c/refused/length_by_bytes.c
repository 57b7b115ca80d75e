/* Refused: memcpy says that the length may lie at any address, so the compiler loads it as single bytes and puts them together
 * in a register that it then tests by its low half.
 *
 * sizes: --key 64 --old 16 --arg 1 --result 16
 * listing: none, since number and unit say enough */
#include "bpfmap.h"

PROGRAM
{
    store64(result, 0, load64(old, 0));
    store64(result, 8, load64(old, 8));
#ifdef MENDED
    u64 length = load32(old, 0);
    BOUND(length, 12);
#else
    u32 length;
    __builtin_memcpy(&length, old, sizeof length);
#endif
    if (length < 12)
        store8(result, 4 + length, load8(arg, 0));
    return 16;
}
