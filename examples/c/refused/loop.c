/* Refused: a loop whose number of turns is not known stays a loop, and jumps back.
 *
 * sizes: --key 8 --old 8 --arg 8 --result 8
 * listing: none, since number and unit say enough */
#include "bpfmap.h"

PROGRAM
{
    u64 sum = 0;
#ifdef MENDED
    UNROLL
    for (s64 i = 0; i < 8; i++)
        sum += i < key_length ? load8(key, i) : 0;
#else
    for (s64 i = 0; i < key_length; i++)
        sum += load8(key, i);
#endif
    store64(result, 0, sum);
    return 8;
}
