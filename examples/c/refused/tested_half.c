/* Refused: a number of 32 bits is tested by its low half. The verifier takes such a test for one of the whole register only where
 * it knows that the number is below 2^31.
 *
 * sizes: --key 64 --old 16 --arg 1 --result 16
 * listing: none, since number and unit say enough */
#include "bpfmap.h"

PROGRAM
{
    store64(result, 0, load64(old, 0));
    store64(result, 8, load64(old, 8));
    u64 length = load32(old, 0);
    if (length < 12) {
#ifdef MENDED
        BOUND(length, 11);
#endif
        store8(result, 4 + length, load8(arg, 0));
    }
    return 16;
}
