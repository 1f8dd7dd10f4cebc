/* Primes below 5000 by trial division, and the coprime pairs below 64 by Euclid's algorithm. */

#include "bench.h"

static int is_prime(u64 number)
{
    for (u64 by = 2; by * by <= number; by++)
        if (number % by == 0)
            return 0;
    return number > 1;
}

static u64 divisor(u64 a, u64 b)
{
    while (b) {
        u64 left = a % b;
        a = b;
        b = left;
    }
    return a;
}

/* Euler's numbers of 1 to n have this sum. */
static int round_is_right(void)
{
    u64 primes = 0, pairs = 0, wanted = 0;
    for (u64 number = 0; number < 5000; number++)
        primes += is_prime(number);
    for (u64 a = 1; a < 64; a++) {
        u64 left = a, phi = a;
        for (u64 b = 1; b <= a; b++)
            pairs += divisor(a, b) == 1;
        for (u64 by = 2; by <= left; by++)
            if (left % by == 0) {
                phi -= phi / by;
                while (left % by == 0)
                    left /= by;
            }
        wanted += phi;
    }
    return primes == 669 && pairs == wanted;
}
