/* The primes below 2^17 by the sieve of Eratosthenes. */

#include "bench.h"

#define BOUND 131072
#define PRIMES 12251

static u8 composite[BOUND];

static int round_is_right(void)
{
    u64 count = 0;
    for (u64 i = 0; i < BOUND; i++)
        composite[i] = 0;
    for (u64 i = 2; i < BOUND; i++) {
        if (composite[i])
            continue;
        count++;
        for (u64 j = i * i; j < BOUND; j += i)
            composite[j] = 1;
    }
    return count == PRIMES;
}
