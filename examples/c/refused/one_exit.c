/* Refused: both answers leave through one EXIT. There the verifier knows that r0 is from -1 to 8, and that on one of the ways
 * nothing was written.
 *
 * sizes: --key 64 --old 8 --arg 8 --result 8 */
#include "bpfmap.h"

PROGRAM
{
    if (old_length < 0)
#ifdef MENDED
        ANSWER(NOTHING);
#else
        return NOTHING;
#endif
    store64(result, 0, load64(old, 0) + 1);
    return 8;
}
