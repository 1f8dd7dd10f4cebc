/* Random numbers from a state of one's own, and quotients. */
#include <inttypes.h>
#include <stdio.h>
#include <stdlib.h>

int main(void)
{
    unsigned seed = 7;
    for (int i = 0; i < 10; i++)
        printf("%d\n", rand_r(&seed));
    ldiv_t split = ldiv(-1000000007, 1000);
    imaxdiv_t wide = imaxdiv(INT64_C(-9223372036854775807), 10);
    printf("%ld %ld %jd %jd %d\n", split.quot, split.rem, wide.quot, wide.rem, abs(-5));
    return seed & 255;
}
