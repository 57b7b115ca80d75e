/* Counter: the argument is added to the old value. An absent one counts as 0.
 *
 * sizes: --key 64 --old 8 --arg 8 --result 8
 * run: --with-old 0100000000000000 --with-arg 0200000000000000
 * answer: bytes 03 00 00 00 00 00 00 00 */
#include "bpfmap.h"

PROGRAM
{
    store64(result, 0, load64(old, 0) + load64(arg, 0));
    return 8;
}
