/* 100 factorial in limbs of nine decimal digits, whose digits have the sum 648: multiplication, division, remainder. */

#include "bench.h"

#define BASE 1000000000
#define LIMBS 18

static u32 limbs[LIMBS];

static void multiply(u64 by)
{
    u64 carry = 0;
    for (u32 i = 0; i < LIMBS; i++) {
        u64 value = limbs[i] * by + carry;
        limbs[i] = value % BASE;
        carry = value / BASE;
    }
}

static int round_is_right(void)
{
    u32 sum = 0;
    for (u32 i = 0; i < LIMBS; i++)
        limbs[i] = i == 0;
    for (u64 by = 2; by <= 100; by++)
        multiply(by);
    for (u32 i = 0; i < LIMBS; i++)
        for (u32 left = limbs[i]; left; left /= 10)
            sum += left % 10;
    return sum == 648;
}
