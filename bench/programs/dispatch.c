/* Calls by a table of functions, and by records that have functions of their own. */

#include "bench.h"

typedef u64 operation(u64 value);

static u64 add(u64 value) { return value + 3; }
static u64 twice(u64 value) { return value * 2; }
static u64 flip(u64 value) { return value ^ 0xFF; }
static u64 halve(u64 value) { return value / 2; }
static u64 clear(u64 value) { return value & 0xFFFF; }

static operation *volatile const operations[8] = {add, twice, flip, halve, add, flip, flip, clear};

static int round_is_right(void)
{
    u64 value = 1, again = 1;
    for (u64 i = 0; i < 4096; i++)
        value = operations[i % 8](value);
    for (u64 i = 0; i < 4096; i += 8)
        again = clear(flip(flip(add(halve(flip(twice(add(again))))))));
    return value == again;
}
