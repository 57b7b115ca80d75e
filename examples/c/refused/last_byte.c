/* Mistake: the last byte of a value that may be absent. Its length is then -1.
 *
 * sizes: --key 64 --old 8 --arg 8 --result 1 */
#include "bpfmap.h"

PROGRAM
{
#ifdef MENDED
    if (old_length < 1)
        ANSWER(NOTHING);
#endif
    store8(result, 0, load8(old, old_length - 1));
    return 1;
}
