/* Mistake: a buffer of more than the stack's 512 bytes.
 *
 * sizes: --key 64 --old 1024 --arg 1 --result 1 */
#include "bpfmap.h"

PROGRAM
{
#ifdef MENDED
    u64 place = load8(arg, 0);
    store8(result, 0, load8(old, place));
#else
    u8 copy[1024];
    __builtin_memcpy(copy, old, 1024);
    store8(result, 0, copy[load8(arg, 0)]);
#endif
    return 1;
}
