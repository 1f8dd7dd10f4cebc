/* Functions of math.h. */
#include <math.h>
#include <stdio.h>

int main(void)
{
    for (int i = -3; i <= 3; i++) {
        volatile double x = i * 0.7 + 0.05;
        printf("%.15g %.15g %.15g %.15g\n", sin(x), cos(x), tan(x), atan(x));
        printf("%.15g %.15g %.15g %.15g\n", exp(x), log(fabs(x)), sqrt(fabs(x)), cbrt(x));
        printf("%.15g %.15g %.15g %.15g\n", sinh(x), tanh(x), pow(fabs(x), x), fmod(x, 0.3));
        printf("%g %g %g %g %ld\n", floor(x), ceil(x), round(x), trunc(x), lrint(x));
        printf("%.15g %.15g %.15g\n", hypot(x, 2), atan2(x, -1), fma(x, x, 1));
    }
    int exponent;
    double part = frexp(1234.5, &exponent), whole, rest = modf(-2.75, &whole);
    printf("%g %d %g %g %g %g\n", part, exponent, whole, rest, ldexp(0.75, 10), erf(0.5));
    return 0;
}
