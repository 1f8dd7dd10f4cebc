/* The third of three sources. */
#include "several.h"

static const long count[2] = {1, 2};

long average(const struct store *store)
{
    long sum = 0;
    for (int at = 0; at < store->count; at++)
        sum += larger(store->items[at], count[at & 1]);
    return store->count == 0 ? 0 : sum / store->count;
}
