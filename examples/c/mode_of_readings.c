/* A state that doesn't flicker: of the last eight readings the most frequent one counts. The value is the eight readings, each from
 * 0 to 7, and then the most frequent of them; the argument is one more reading. The counts are an array on the stack.
 *
 * sizes: --key 64 --old 9 --arg 1 --result 9
 * run: --with-old 020502020305010302 --with-arg 03
 * answer: bytes 03 02 05 02 02 03 05 01 02
 * run: --with-arg 07
 * answer: bytes 07 00 00 00 00 00 00 00 00
 * run: --with-old 040404040101010104 --with-arg 01
 * answer: bytes 01 04 04 04 04 01 01 01 04 */
#include "bpfmap.h"

PROGRAM
{
    u64 newest = load8(arg, 0);
    MASK(newest, 7);
    u64 readings = load64(old, 0) << 8 | newest;
    store64(result, 0, readings);

    u8 counts[8] = {0};
    u64 chosen = 0;
    u64 most = 0;
    UNROLL
    for (u64 i = 0; i < 8; i++) {
        u64 reading = readings >> 8 * i;
        MASK(reading, 7);
        u64 count = ++counts[reading];
        chosen = count > most ? reading : chosen;
        most = count > most ? count : most;
    }
    store8(result, 8, chosen);
    return 9;
}
