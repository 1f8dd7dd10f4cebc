/* The towers of Hanoi with ten discs, on stacks in memory: 1023 moves, with each disc on a larger one. */

#include "bench.h"

#define DISCS 10

static struct {
    u32 count;
    u8 discs[DISCS + 1];
} rods[3];

static u32 moves, wrong;

static __attribute__((noinline)) void move(u32 discs, u32 from, u32 to, u32 by)
{
    if (discs == 0)
        return;
    move(discs - 1, from, by, to);
    u8 disc = rods[from].discs[--rods[from].count];
    wrong += rods[to].count && rods[to].discs[rods[to].count - 1] < disc;
    rods[to].discs[rods[to].count++] = disc;
    moves++;
    move(discs - 1, by, to, from);
}

static int round_is_right(void)
{
    moves = wrong = 0;
    rods[1].count = rods[2].count = 0;
    rods[0].count = DISCS;
    for (u32 i = 0; i < DISCS; i++)
        rods[0].discs[i] = DISCS - i;
    move(DISCS, 0, 2, 1);
    return moves == 1023 && wrong == 0 && rods[2].count == DISCS;
}
