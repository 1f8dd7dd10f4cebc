/* Numbers of 128 bits. */
#include <stdio.h>

typedef unsigned __int128 u128;

static void show(u128 value)
{
    char digits[41], *at = digits + 40;
    *at = 0;
    do
        *--at = '0' + (int)(value % 10);
    while (value /= 10);
    printf("%s\n", at);
}

int main(void)
{
    volatile u128 one = 1;
    u128 factorial = one;
    for (int i = 2; i <= 34; i++)
        show(factorial *= i);
    show(factorial >> 70);
    show(factorial << 3);
    volatile __int128 negative = -(__int128)factorial;
    show(negative / 1000003 + factorial);
    show((u128)(negative % 1000003 + 1000003));
    printf("%.17g\n", (double)factorial);
    return (int)(factorial % 251);
}
