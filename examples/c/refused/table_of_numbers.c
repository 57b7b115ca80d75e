/* Mistake: a table. The compiler keeps it in data.
 *
 * sizes: --key 64 --old 8 --arg 1 --result 8 */
#include "bpfmap.h"

PROGRAM
{
    u64 place = load8(arg, 0);
#ifdef MENDED
    u64 prices[4];
    u64 *prices_here = prices;
    OPAQUE(prices_here);
    prices_here[0] = 5;
    prices_here[1] = 20;
    prices_here[2] = 75;
    prices_here[3] = 300;
    MASK(place, 3);
    store64(result, 0, prices_here[place]);
#else
    static const u64 prices[4] = {5, 20, 75, 300};
    store64(result, 0, prices[place & 3]);
#endif
    return 8;
}
