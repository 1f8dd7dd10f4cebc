/* In how many ways eight queens stand on a board without threatening each other, by sets of bits. */

#include "bench.h"

static __attribute__((noinline)) u64 ways(u32 columns, u32 left, u32 right)
{
    u64 count = 0;
    if (columns == 255)
        return 1;
    for (u32 free = 255 & ~(columns | left | right); free; free &= free - 1) {
        u32 place = free & -free;
        count += ways(columns | place, (left | place) << 1, (right | place) >> 1);
    }
    return count;
}

static int round_is_right(void) { return ways(0, 0, 0) == 92; }
