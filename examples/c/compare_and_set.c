/* Compare and set by a version: the value is a version and a payload, the argument the version that the caller has seen and a
 * new payload. Where the versions agree the payload is replaced and the version rises; else the value stays. An absent
 * value counts as zeros.
 *
 * sizes: --key 64 --old 16 --arg 16 --result 16
 * run: --with-old 07000000000000000a00000000000000 --with-arg 07000000000000000b00000000000000
 * answer: bytes 08 00 00 00 00 00 00 00 0b 00 00 00 00 00 00 00
 * run: --with-old 07000000000000000a00000000000000 --with-arg 06000000000000000b00000000000000
 * answer: bytes 07 00 00 00 00 00 00 00 0a 00 00 00 00 00 00 00 */
#include "bpfmap.h"

PROGRAM
{
    u64 version = load64(old, 0);
    u64 kept = load64(old, 8);
    u64 seen = load64(arg, 0);
    u64 wanted = load64(arg, 8);
    OPAQUE(kept);
    OPAQUE(wanted);
    int agree = version == seen;
    store64(result, 0, version + agree);
    store64(result, 8, agree ? wanted : kept);
    return 16;
}
