/* The first of three sources, in which one name means different things. */
#include "several.h"

static int count = 100;

__attribute__((noinline)) static int scaled(int n)
{
    return n * count;
}

int main(void)
{
    struct store store = {0};
    for (int n = 1; n <= 6; n++)
        put(&store, scaled(n) + larger(n, 3));
    return (average(&store) + count) & 127;
}
