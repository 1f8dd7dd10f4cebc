/* Arrays of one, two and three dimensions, of variables, of constants and on the stack. */
static const short weights[3][4] = {{1, 2, 3, 4}, {5, 6, 7, 8}, {9, 10, 11, 12}};
int cube[2][3][4];
static long totals[3];
char letters[] = "abcdefghij";

__attribute__((noinline)) static void fill(int planes[2][3][4], int start)
{
    for (int plane = 0; plane < 2; plane++)
        for (int row = 0; row < 3; row++)
            for (int column = 0; column < 4; column++)
                planes[plane][row][column] = start++ * weights[row][column];
}

__attribute__((noinline)) static long total(const int *row, int count)
{
    long sum = 0;
    for (int at = 0; at < count; at++)
        sum += row[at];
    return sum;
}

__attribute__((noinline)) int turned(char *text, int count)
{
    char copy[16];
    for (int at = 0; at < count; at++)
        copy[at] = text[count - 1 - at];
    for (int at = 0; at < count; at++)
        text[at] = copy[at];
    return text[0];
}

int main(void)
{
    int local[5] = {1, 1, 2, 3, 5};
    fill(cube, 3);
    for (int row = 0; row < 3; row++)
        totals[row] = total(cube[1][row], 4);
    local[2] = turned(letters, 10);
    return (totals[0] + totals[1] + totals[2] + total(local, 5)) & 127;
}
