/* Soft floating point of 128 bits. */
#include <stdio.h>
#include <string.h>

static void show(long double value)
{
    unsigned long held[2];
    memcpy(held, &value, sizeof held);
    printf("%016lx%016lx\n", held[1], held[0]);
}

int main(void)
{
    volatile long double x = 1, y = 3, z = 1e-4000L;
    show(x / y);
    show(x + y * z);
    show(x - z);
    show(y * y * y / (x + y));
    show((long double)0.1);
    show((double)(x / y));
    show((long)(y * 1e18L));
    printf("%d%d%d\n", x < y, x == y, z > 0);
    return (int)(y * 10);
}
