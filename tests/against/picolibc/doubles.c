/* Soft floating point of 64 bits: libgcc's. */
#include <stdint.h>
#include <stdio.h>
#include <string.h>

static uint64_t bits(double value)
{
    uint64_t held;
    memcpy(&held, &value, sizeof held);
    return held;
}

int main(void)
{
    volatile double values[] = {0.0, -0.0, 1.0, -1.5, 1e-310, 3.141592653589793, 1e300, 1.0 / 0.0, -1e18};
    int count = sizeof values / sizeof *values;
    for (int i = 0; i < count; i++)
        for (int j = 0; j < count; j++) {
            double a = values[i], b = values[j];
            printf("%016lx %016lx %016lx ", bits(a + b), bits(a - b), bits(a * b));
            printf("%d%d%d%d%d\n", a < b, a <= b, a == b, a > b, a != b);
            if (b != 0)
                printf("%016lx\n", bits(a / b));
        }
    volatile double whole = -123456789.75;
    volatile long number = 9007199254740993;
    volatile unsigned long natural = 18446744073709551615ul;
    printf("%d %ld %lu\n", (int)whole, (long)whole, (unsigned long)-whole);
    printf("%016lx %016lx\n", bits((double)number), bits((double)natural));
    return 0;
}
