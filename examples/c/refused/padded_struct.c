/* Mistake: a struct has padding, so its last field lies behind the declared size.
 *
 * sizes: --key 64 --old 12 --arg 8 --result 8 */
#include "bpfmap.h"

struct entry {
    u32 kind;
    u64 count;
#ifdef MENDED
} __attribute__((packed));
#else
};
#endif

PROGRAM
{
    const struct entry *entry = (const struct entry *)old;
    store64(result, 0, entry->count + 1);
    return 8;
}
