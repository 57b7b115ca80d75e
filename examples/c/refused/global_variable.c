/* Mistake: a variable outside the function. A program keeps nothing but the value.
 *
 * sizes: --key 64 --old 8 --arg 8 --result 8 */
#include "bpfmap.h"

#ifndef MENDED
static u64 calls;
#endif

PROGRAM
{
#ifdef MENDED
    u64 calls = load64(old, 0) + 1;
    store64(result, 0, calls);
#else
    store64(result, 0, ++calls);
#endif
    return 8;
}
