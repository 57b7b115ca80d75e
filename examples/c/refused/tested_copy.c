/* Refused: a copy of the place is tested, and the register that it was copied from moves the address. The verifier keeps no
 * relation between the two.
 *
 * sizes: --key 64 --old 8 --arg 2 --result 8
 * listing: none, since number and unit say enough */
#include "bpfmap.h"

PROGRAM
{
    store64(result, 0, load64(old, 0));
#ifdef MENDED
    u64 place = (u8)(load8(arg, 0) - 'a');
    if (place < 8) {
        BOUND(place, 7);
        store8(result, place, load8(arg, 1));
    }
#else
    u8 place = load8(arg, 0) - 'a';
    if (place < 8)
        store8(result, place, load8(arg, 1));
#endif
    return 8;
}
