/* Top of a list: the value is the four greatest numbers so far, the greatest first. The argument is one more.
 *
 * sizes: --key 64 --old 32 --arg 8 --result 32
 * run: --with-old 090000000000000005000000000000000200000000000000 --with-arg 0700000000000000
 * answer: bytes 09 00 00 00 00 00 00 00 07 00 00 00 00 00 00 00 05 00 00 00 00 00 00 00 02 00 00 00 00 00 00 00 */
#include "bpfmap.h"

PROGRAM
{
    u64 number = load64(arg, 0);
    UNROLL
    for (u64 i = 0; i < 32; i += 8) {
        u64 listed = load64(old, i);
        u64 greater = number > listed ? number : listed;
        number = number > listed ? listed : number;
        store64(result, i, greater);
    }
    return 32;
}
