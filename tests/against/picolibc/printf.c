/* printf, with numbers, texts and floating point. */
#include <stdio.h>

volatile double third = 1.0 / 3;
volatile long large = 1234567890123456789;

int main(void)
{
    printf("%d %i %u %ld %lu\n", -42, 17, 4000000000u, -large, (unsigned long)large);
    printf("[%5d] [%-5d] [%05d] [%+d] [% d] [%.3d]\n", 42, 42, 42, 42, 42, 7);
    printf("%x %X %#x %o %#o %lx\n", 255, 255, 255, 8, 8, large);
    printf("[%s] [%10s] [%-10s] [%.2s] [%c] %%\n", "abc", "abc", "abc", "abc", 'z');
    printf("%f %.2f %10.4f %-10.1f| %e %g %G\n", third, third, third, third, third * 1e20, third * 1e-7, 1e300);
    printf("%*d %.*f\n", 8, 99, 3, third);
    return printf("%s", "last\n");
}
