/* Session that expires: the value is a user's number, the time when the session ends, and how often it was used. The argument
 * is the time now, and how long the session lives on from now. One that has ended is gone, and an absent one is not made.
 *
 * sizes: --key 64 --old 24 --arg 16 --result 24
 * run: --with-old 2a0000000000000064000000000000000300000000000000 --with-arg 63000000000000001e00000000000000
 * answer: bytes 2a 00 00 00 00 00 00 00 81 00 00 00 00 00 00 00 04 00 00 00 00 00 00 00
 * run: --with-old 2a0000000000000064000000000000000300000000000000 --with-arg 64000000000000001e00000000000000
 * answer: nothing
 * run: --with-arg 63000000000000001e00000000000000
 * answer: nothing */
#include "bpfmap.h"

PROGRAM
{
    u64 now = NOW;
    u64 ends = now + load64(arg, 8);
    store64(result, 0, load64(old, 0));
    store64(result, 8, ends < now ? ~0ULL : ends);
    store64(result, 16, load64(old, 16) + 1);
    if (old_length < 0 || now >= load64(old, 8))
        return NOTHING;
    return 24;
}
