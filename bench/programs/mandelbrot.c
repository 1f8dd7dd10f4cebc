/* Which points of a grid stay in Mandelbrot's set for 64 steps, in numbers with 28 binary places. The set is symmetric:
   the upper half of the grid has as many as the lower. */

#include "bench.h"

#define ONE (1L << 28)
#define COLUMNS 24
#define ROWS 10

static u32 steps(i64 x, i64 y)
{
    i64 a = 0, b = 0;
    for (u32 i = 0; i < 64; i++) {
        i64 aa = a * a >> 28, bb = b * b >> 28;
        if (aa + bb > 4 * ONE)
            return i;
        b = (a * b >> 27) + y;
        a = aa - bb + x;
    }
    return 64;
}

static int round_is_right(void)
{
    u64 up = 0, down = 0, within = 0;
    for (i64 row = 1; row <= ROWS; row++)
        for (i64 column = 0; column < COLUMNS; column++) {
            i64 x = column * 3 * ONE / COLUMNS - 2 * ONE, y = row * ONE / ROWS;
            u32 above = steps(x, y), below = steps(x, -y);
            up += above == 64;
            down += below == 64;
            within += above >= 2;
        }
    return up > 20 && up < COLUMNS * ROWS / 2 && down + 3 > up && up + 3 > down && within > up;
}
