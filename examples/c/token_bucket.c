/* Token bucket: the value is the tokens left and the time when they were counted, the argument the time now and the tokens
 * asked for. One token comes back a unit of time, up to 10. The third number of the answer is 1 where they were granted,
 * and else 0.
 *
 * sizes: --key 64 --old 24 --arg 16 --result 24
 * run: --with-old 02000000000000006400000000000000 --with-arg 69000000000000000400000000000000
 * answer: bytes 03 00 00 00 00 00 00 00 69 00 00 00 00 00 00 00 01 00 00 00 00 00 00 00
 * run: --with-old 02000000000000006400000000000000 --with-arg 65000000000000000400000000000000
 * answer: bytes 03 00 00 00 00 00 00 00 65 00 00 00 00 00 00 00 00 00 00 00 00 00 00 00 */
#include "bpfmap.h"

PROGRAM
{
    u64 now = NOW;
    u64 wanted = load64(arg, 8);
    u64 tokens = load64(old, 0) + (now - load64(old, 8));
    if (tokens > 10)
        tokens = 10;
    u64 granted = wanted <= tokens;
    store64(result, 0, granted ? tokens - wanted : tokens);
    store64(result, 8, now);
    store64(result, 16, granted);
    return 24;
}
