/* Complex numbers, whose products and quotients are libgcc's. */
#include <complex.h>
#include <stdio.h>

static void show(double complex z) { printf("%.14g %.14g\n", creal(z), cimag(z)); }

int main(void)
{
    volatile double complex a = 1 + 2 * I, b = 3 - 0.5 * I;
    show(a * b);
    show(a / b);
    show(conj(a));
    show(csqrt(b));
    show(cexp(a));
    printf("%.14g %.14g\n", cabs(a), carg(b));
    return 0;
}
