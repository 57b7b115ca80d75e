/* Mistake: written out, the loop has more units than a program may have.
 *
 * sizes: --key 64 --old 1024 --arg 1 --result 1024 */
#include "bpfmap.h"

#ifdef MENDED
#define BYTES 512
#else
#define BYTES 1024
#endif

PROGRAM
{
    u64 mask = load8(arg, 0);
    UNROLL
    for (u64 i = 0; i < BYTES; i++)
        store8(result, i, (load8(old, i) ^ mask) + 1);
    return BYTES;
}
