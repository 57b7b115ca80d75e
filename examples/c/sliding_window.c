/* Sliding-window rate limiter: at most eight requests are granted in any 60 units of time. The value is how many were granted so
 * far, the times of the last eight of them, and 1 where the last request was granted, else 0. The argument is the time
 * now. A request is granted where fewer than eight were, or the eighth before it is at least 60 units ago.
 *
 * sizes: --key 64 --old 80 --arg 8 --result 80
 * run: --with-arg 6400000000000000
 * answer: bytes 01 00 00 00 00 00 00 00 64 00 00 00 00 00 00 00 00 00 00 00 00 00 00 00 00 00 00 00 00 00 00 00 00 00 00 00 00 00 00 00 00 00 00 00 00 00 00 00 00 00 00 00 00 00 00 00 00 00 00 00 00 00 00 00 00 00 00 00 00 00 00 00 01 00 00 00 00 00 00 00
 * run: --with-old 080000000000000064000000000000006500000000000000660000000000000067000000000000006800000000000000690000000000000078000000000000007900000000000000 --with-arg 9f00000000000000
 * answer: bytes 08 00 00 00 00 00 00 00 64 00 00 00 00 00 00 00 65 00 00 00 00 00 00 00 66 00 00 00 00 00 00 00 67 00 00 00 00 00 00 00 68 00 00 00 00 00 00 00 69 00 00 00 00 00 00 00 78 00 00 00 00 00 00 00 79 00 00 00 00 00 00 00 00 00 00 00 00 00 00 00
 * run: --with-old 080000000000000064000000000000006500000000000000660000000000000067000000000000006800000000000000690000000000000078000000000000007900000000000000 --with-arg a000000000000000
 * answer: bytes 09 00 00 00 00 00 00 00 a0 00 00 00 00 00 00 00 65 00 00 00 00 00 00 00 66 00 00 00 00 00 00 00 67 00 00 00 00 00 00 00 68 00 00 00 00 00 00 00 69 00 00 00 00 00 00 00 78 00 00 00 00 00 00 00 79 00 00 00 00 00 00 00 01 00 00 00 00 00 00 00 */
#include "bpfmap.h"

PROGRAM
{
    UNROLL
    for (u64 i = 0; i < 72; i += 8)
        store64(result, i, load64(old, i));
    u64 now = NOW;
    u64 count = load64(old, 0);
    u64 place = count;
    MASK(place, 7);
    u64 eighth = load64(old, 8 + place * 8);
    u64 granted = count < 8 || (now > eighth && now - eighth >= 60);
    store64(result, 0, count + granted);
    store64(result, 8 + place * 8, granted ? now : eighth);
    store64(result, 72, granted);
    return 80;
}
