/* Top eight by count: the value is eight items, each with how often it came, the most frequent first; a count of 0 is a free
 * place. The argument is one more item. One that is not listed takes the place of the last, and goes on from its count
 * (Space-Saving): so counts may be too high, never too low, and an item that came more often than the last count is listed.
 *
 * sizes: --key 64 --old 128 --arg 8 --result 128
 * run: --with-old 0a0000000000000005000000000000000b000000000000000300000000000000 --with-arg 0c00000000000000
 * answer: bytes 0a 00 00 00 00 00 00 00 05 00 00 00 00 00 00 00 0b 00 00 00 00 00 00 00 03 00 00 00 00 00 00 00 0c 00 00 00 00 00 00 00 01 00 00 00 00 00 00 00 00 00 00 00 00 00 00 00 00 00 00 00 00 00 00 00 00 00 00 00 00 00 00 00 00 00 00 00 00 00 00 00 00 00 00 00 00 00 00 00 00 00 00 00 00 00 00 00 00 00 00 00 00 00 00 00 00 00 00 00 00 00 00 00 00 00 00 00 00 00 00 00 00 00 00 00 00 00 00 00
 * run: --with-old 0a0000000000000005000000000000000b0000000000000003000000000000000c000000000000000300000000000000 --with-arg 0c00000000000000
 * answer: bytes 0a 00 00 00 00 00 00 00 05 00 00 00 00 00 00 00 0c 00 00 00 00 00 00 00 04 00 00 00 00 00 00 00 0b 00 00 00 00 00 00 00 03 00 00 00 00 00 00 00 00 00 00 00 00 00 00 00 00 00 00 00 00 00 00 00 00 00 00 00 00 00 00 00 00 00 00 00 00 00 00 00 00 00 00 00 00 00 00 00 00 00 00 00 00 00 00 00 00 00 00 00 00 00 00 00 00 00 00 00 00 00 00 00 00 00 00 00 00 00 00 00 00 00 00 00 00 00 00 00
 * run: --with-old 0a0000000000000009000000000000000b0000000000000008000000000000000c0000000000000007000000000000000d0000000000000006000000000000000e0000000000000005000000000000000f0000000000000004000000000000001000000000000000030000000000000011000000000000000200000000000000 --with-arg 6300000000000000
 * answer: bytes 0a 00 00 00 00 00 00 00 09 00 00 00 00 00 00 00 0b 00 00 00 00 00 00 00 08 00 00 00 00 00 00 00 0c 00 00 00 00 00 00 00 07 00 00 00 00 00 00 00 0d 00 00 00 00 00 00 00 06 00 00 00 00 00 00 00 0e 00 00 00 00 00 00 00 05 00 00 00 00 00 00 00 0f 00 00 00 00 00 00 00 04 00 00 00 00 00 00 00 10 00 00 00 00 00 00 00 03 00 00 00 00 00 00 00 63 00 00 00 00 00 00 00 03 00 00 00 00 00 00 00 */
#include "bpfmap.h"

PROGRAM
{
    u64 wanted = load64(arg, 0);
    u64 before = load64(old, 120);
    UNROLL
    for (u64 i = 0; i < 128; i += 16)
        before = load64(old, i) == wanted && load64(old, i + 8) != 0 ? load64(old, i + 8) : before;
    u64 item = wanted;
    u64 count = before + 1;
    UNROLL
    for (u64 i = 0; i < 128; i += 16) {
        u64 listed = load64(old, i);
        u64 times = load64(old, i + 8);
        u64 is_wanted = listed == wanted && times != 0;
        u64 is_moved = is_wanted || count > times;
        store64(result, i, is_moved ? item : listed);
        store64(result, i + 8, is_moved ? count : times);
        item = is_moved ? listed : item;
        count = is_wanted ? 0 : is_moved ? times : count;
    }
    return 128;
}
