/* The product of two matrices of 64-bit numbers: over a vector it does what the one does after the other. */

#include "bench.h"

#define SIDE 64

static u64 left[SIDE][SIDE], right[SIDE][SIDE], product[SIDE][SIDE], vector[SIDE], image[SIDE];

static u64 entry(u64 (*matrix)[SIDE], const u64 *of, int row)
{
    u64 sum = 0;
    for (int i = 0; i < SIDE; i++)
        sum += matrix[row][i] * of[i];
    return sum;
}

static int round_is_right(void)
{
    for (int i = 0; i < SIDE; i++) {
        vector[i] = i * 7 + 1;
        for (int j = 0; j < SIDE; j++) {
            left[i][j] = i * 31 + j * 17 + 3;
            right[i][j] = i * j ^ 0x55;
        }
    }
    for (int i = 0; i < SIDE; i++)
        for (int j = 0; j < SIDE; j++) {
            u64 sum = 0;
            for (int k = 0; k < SIDE; k++)
                sum += left[i][k] * right[k][j];
            product[i][j] = sum;
        }
    for (int i = 0; i < SIDE; i++)
        image[i] = entry(right, vector, i);
    for (int i = 0; i < SIDE; i++)
        if (entry(product, vector, i) != entry(left, image, i))
            return 0;
    return 1;
}
