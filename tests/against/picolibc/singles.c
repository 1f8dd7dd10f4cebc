/* Soft floating point of 32 bits. */
#include <math.h>
#include <stdio.h>

int main(void)
{
    volatile float x = 0.1f, y = 3.0f;
    float sum = 0;
    for (int i = 1; i <= 1000; i++)
        sum += x / i;
    printf("%.9g %.9g %.9g %.9g\n", sum, x * y, x - y, y / x);
    printf("%.9g %.9g %.9g\n", sqrtf(y), sinf(x), expf(y));
    printf("%d %u %ld\n", (int)(y * -1.5f), (unsigned)(y * 7), (long)(x * 1e10f));
    printf("%.9g %.17g\n", (float)16777217, (double)x);
    return x < y ? 33 : 44;
}
