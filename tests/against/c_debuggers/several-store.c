/* The second of three sources. */
#include "several.h"

static char count;

__attribute__((noinline)) static int scaled(int n)
{
    count++;
    return n >> 1;
}

void put(struct store *store, int item)
{
    if (store->count == CAPACITY)
        store->count = 0;
    store->items[store->count++] = scaled(item);
}
