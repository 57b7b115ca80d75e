/* Mistake: memcpy of a number of bytes that is not a constant is a call.
 *
 * sizes: --key 64 --old 8 --arg 8 --result 8 */
#include "bpfmap.h"

PROGRAM
{
#ifdef MENDED
    store64(result, 0, load64(arg, 0));
#else
    __builtin_memcpy(result, arg, arg_length);
#endif
    return 8;
}
