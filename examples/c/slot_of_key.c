/* A key's hash into a slot: the value is sixteen counts of 2 bytes. The hash of the key's first sixteen bytes (FNV-1a of 64
 * bits) says whose count rises.
 *
 * sizes: --key 16 --old 32 --arg 0 --result 32
 * run: --with-key 61
 * answer: bytes 00 00 00 00 00 00 00 00 00 00 00 00 00 00 00 00 00 00 00 00 00 00 00 00 01 00 00 00 00 00 00 00 */
#include "bpfmap.h"

PROGRAM
{
    UNROLL
    for (u64 i = 0; i < 32; i += 8)
        store64(result, i, load64(old, i));
    u64 hash = 0xcbf29ce484222325ULL;
    UNROLL
    for (s64 i = 0; i < 16; i++)
        hash = i < key_length ? (hash ^ load8(key, i)) * 0x100000001b3ULL : hash;
    u64 slot = hash;
    MASK(slot, 15);
    store16(result, slot * 2, load16(result, slot * 2) + 1);
    return 32;
}
