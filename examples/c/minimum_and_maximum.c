/* Minimum and maximum: the value is the least and the greatest signed number so far, the argument one more. Without an
 * old value the argument is both; without an argument nothing is answered.
 *
 * sizes: --key 64 --old 16 --arg 8 --result 16
 * run: --with-old 02000000000000000900000000000000 --with-arg feffffffffffffff
 * answer: bytes fe ff ff ff ff ff ff ff 09 00 00 00 00 00 00 00
 * run: --with-arg 0500000000000000
 * answer: bytes 05 00 00 00 00 00 00 00 05 00 00 00 00 00 00 00
 * run: --with-old 02000000000000000900000000000000
 * answer: nothing */
#include "bpfmap.h"

PROGRAM
{
    s64 number = load64(arg, 0);
    s64 least = load64(old, 0);
    s64 greatest = load64(old, 8);
    if (arg_length < 0)
        ANSWER(NOTHING);
    if (old_length < 0 || number < least)
        least = number;
    if (old_length < 0 || number > greatest)
        greatest = number;
    store64(result, 0, least);
    store64(result, 8, greatest);
    return 16;
}
