/* What the programs share: each does so many rounds as the input says in decimal digits, checks each round's result,
   and exits with 0 where all are right, else with 1. Each round executes the same instructions. */

#include "../../examples/c/bare.h"

/* Whether a round comes to its result. */
static int round_is_right(void);

static int program(void)
{
    char digits[8];
    u64 count = get(digits, sizeof digits), rounds = 0;
    for (u64 i = 0; i < count && digits[i] >= '0'; i++)
        rounds = rounds * 10 + digits[i] - '0';
    for (u64 i = 0; i < rounds; i++)
        if (!round_is_right())
            return 1;
    return 0;
}
