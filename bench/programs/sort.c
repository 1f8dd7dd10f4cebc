/* Quicksort of numbers that a generator draws. */

#include "bench.h"

#define ITEMS 8192

static u64 items[ITEMS];

static void sort(u64 *from, u64 *to)
{
    while (from < to) {
        u64 pivot = from[(to - from) / 2], *low = from, *high = to;
        while (low <= high) {
            while (*low < pivot)
                low++;
            while (*high > pivot)
                high--;
            if (low <= high) {
                u64 item = *low;
                *low++ = *high;
                *high-- = item;
            }
        }
        sort(from, high);
        from = low;
    }
}

/* Sorted, with the sum that the numbers had. */
static int round_is_right(void)
{
    u64 seed = 88172645463325252, before = 0, after = 0;
    for (u64 i = 0; i < ITEMS; i++) {
        seed ^= seed << 13;
        seed ^= seed >> 7;
        seed ^= seed << 17;
        items[i] = seed;
        before += seed;
    }
    sort(items, items + ITEMS - 1);
    for (u64 i = 0; i < ITEMS; i++) {
        if (i > 0 && items[i - 1] > items[i])
            return 0;
        after += items[i];
    }
    return before == after;
}
