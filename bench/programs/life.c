/* Conway's game of life on a torus of 32 by 32 cells, a byte each: a glider is back where it began after 128 steps. */

#include "bench.h"

#define SIDE 32

static u8 cells[2][SIDE][SIDE];

static void step(u8 (*from)[SIDE], u8 (*to)[SIDE])
{
    for (u32 y = 0; y < SIDE; y++)
        for (u32 x = 0; x < SIDE; x++) {
            u32 count = 0;
            for (u32 dy = SIDE - 1; dy <= SIDE + 1; dy++)
                for (u32 dx = SIDE - 1; dx <= SIDE + 1; dx++)
                    count += from[(y + dy) % SIDE][(x + dx) % SIDE];
            to[y][x] = count == 3 || (count == 4 && from[y][x]);
        }
}

static int round_is_right(void)
{
    static const u8 glider[5][2] = {{0, 1}, {1, 2}, {2, 0}, {2, 1}, {2, 2}};
    u32 count = 0, kept = 0;
    memset(cells, 0, sizeof cells);
    for (int i = 0; i < 5; i++)
        cells[0][glider[i][0]][glider[i][1]] = 1;
    for (int i = 0; i < SIDE * 2; i++) {
        step(cells[0], cells[1]);
        step(cells[1], cells[0]);
    }
    for (u32 i = 0; i < SIDE * SIDE; i++)
        count += cells[0][i / SIDE][i % SIDE];
    for (int i = 0; i < 5; i++)
        kept += cells[0][glider[i][0]][glider[i][1]];
    return count == 5 && kept == 5;
}
