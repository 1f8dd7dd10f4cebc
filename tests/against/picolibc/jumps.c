/* setjmp and longjmp over frames. */
#include <setjmp.h>
#include <stdio.h>

static jmp_buf place;

static void dive(int depth)
{
    volatile int held[8] = {depth};
    if (depth == 12)
        longjmp(place, held[0] + 30);
    dive(depth + 1);
    printf("never %d\n", held[0]);
}

int main(void)
{
    volatile int times = 0;
    int said = setjmp(place);
    printf("%d %d\n", said, times);
    if (times++ < 3)
        dive(times);
    return said;
}
