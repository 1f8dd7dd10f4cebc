/* A program that calls functions of a C library and of libgcc, and prints what they give. */

#include <ctype.h>
#include <math.h>
#include <stdio.h>
#include <stdlib.h>
#include <string.h>

typedef unsigned long u64;

static int by_value(const void *left, const void *right)
{
    long a = *(const long *)left, b = *(const long *)right;
    return (a > b) - (a < b);
}

static const char poem[] = "the quick brown fox jumps over the lazy dog";

int main(void)
{
    long drawn[50];
    u64 seed = 1, sum = 0;
    for (int i = 0; i < 50; i++)
        drawn[i] = (seed = seed * 6364136223846793005 + 1442695040888963407) >> 40;
    qsort(drawn, 50, sizeof *drawn, by_value);
    for (int i = 0; i < 50; i++)
        sum = sum * 31 + drawn[i];
    long *found = bsearch(&drawn[31], drawn, 50, sizeof *drawn, by_value);
    printf("%lu, and the one of number %d is %ld\n", sum, (int)(found - drawn), *found);

    char copy[sizeof poem];
    memcpy(copy, poem, sizeof poem);
    for (char *at = copy; *at; at++)
        *at = toupper(*at);
    printf("%s, where JUMPS begins at %d\n", copy, (int)(strstr(copy, "JUMPS") - copy));
    memmove(copy + 4, copy, 20);
    printf("%-50.30s|\n", copy);

    /* soft floating point and 128-bit numbers are libgcc's */
    volatile double third = 1.0 / 3, large = 1e18;
    printf("%.3f %g %.15g\n", third, third * large, sin(third));
    volatile unsigned __int128 wide = (unsigned __int128)seed << 64 | sum;
    printf("%lx\n", (u64)(wide / 1000000007));
    return (unsigned char)sum;
}
