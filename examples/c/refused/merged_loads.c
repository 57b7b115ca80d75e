/* Refused: the compiler makes one load of the two, through an address that is chosen first. Where the ways meet the address is
 * one of two windows, so the verifier knows it as a number.
 *
 * sizes: --key 64 --old 8 --arg 8 --result 8 */
#include "bpfmap.h"

PROGRAM
{
#ifdef MENDED
    u64 kept = load64(old, 0);
    u64 given = load64(arg, 0);
    OPAQUE(kept);
    OPAQUE(given);
    u64 number = arg_length < 0 ? kept : given;
#else
    u64 number = arg_length < 0 ? load64(old, 0) : load64(arg, 0);
#endif
    store64(result, 0, number + 1);
    return 8;
}
