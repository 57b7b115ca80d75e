/* Saturating counter: the argument is added to the old value, and a sum past the greatest number stays there.
 *
 * sizes: --key 64 --old 8 --arg 8 --result 8
 * run: --with-old feffffffffffffff --with-arg 0500000000000000
 * answer: bytes ff ff ff ff ff ff ff ff */
#include "bpfmap.h"

PROGRAM
{
    u64 count = load64(old, 0);
    u64 sum = count + load64(arg, 0);
    store64(result, 0, sum < count ? ~0ULL : sum);
    return 8;
}
