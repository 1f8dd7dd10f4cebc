/* A table with open addressing: numbers are put in, found again, and not found where they were not put in. */

#include "bench.h"

#define PLACES 4096
#define KEYS 2500

static struct {
    u64 key, value;
} table[PLACES];

static u64 place(u64 key)
{
    u64 at = (key * 0x9E3779B97F4A7C15 >> 40) % PLACES;
    while (table[at].key && table[at].key != key)
        at = (at + 1) % PLACES;
    return at;
}

static int round_is_right(void)
{
    u64 sum = 0, strangers = 0;
    for (u64 i = 0; i < PLACES; i++)
        table[i].key = 0;
    for (u64 i = 1; i <= KEYS; i++) {
        u64 at = place(i * i);
        table[at].key = i * i;
        table[at].value += i;
    }
    for (u64 i = 1; i <= KEYS; i++) {
        u64 at = place(i * i);
        sum += table[at].value;
        table[at].value = 0;
        strangers += table[place(i * i + 1)].key == 0;
    }
    return sum == (u64)KEYS * (KEYS + 1) / 2 && strangers == KEYS;
}
