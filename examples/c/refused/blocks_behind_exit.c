/* Refused: the compiler takes one way of each turn for rare, puts its block behind EXIT, and jumps back from there.
 *
 * sizes: --key 64 --old 64 --arg 8 --result 64
 * listing: none, since it has 42 units */
#include "bpfmap.h"

PROGRAM
{
    u64 number = load64(arg, 0);
    UNROLL
    for (u64 i = 0; i < 4; i++) {
        u64 kept = load64(old, 16 * i);
        u64 count = load64(old, 16 * i + 8);
#ifdef MENDED
        u64 is_here = number % 4 == i;
        store64(result, 16 * i, is_here ? number : kept);
        store64(result, 16 * i + 8, count + is_here);
#else
        if (number % 4 == i) {
            store64(result, 16 * i, number);
            store64(result, 16 * i + 8, count + 1);
        } else {
            store64(result, 16 * i, kept);
            store64(result, 16 * i + 8, count);
        }
#endif
    }
    return 64;
}
