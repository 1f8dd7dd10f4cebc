/* Functions that call themselves and one another, some frames deep. */
static int moves[3];

__attribute__((noinline)) static void hanoi(int count, int from, int to)
{
    if (count == 0)
        return;
    hanoi(count - 1, from, 3 - from - to);
    moves[from] += to;
    hanoi(count - 1, 3 - from - to, to);
}

__attribute__((noinline)) static int ackermann(int m, int n)
{
    if (m == 0)
        return n + 1;
    if (n == 0)
        return ackermann(m - 1, 1);
    return ackermann(m - 1, ackermann(m, n - 1));
}

static int is_odd(unsigned n);

__attribute__((noinline)) static int is_even(unsigned n)
{
    int known = n == 0;
    return known ? 1 : is_odd(n - 1);
}

__attribute__((noinline)) static int is_odd(unsigned n)
{
    int known = n == 0;
    return known ? 0 : is_even(n - 1);
}

__attribute__((noinline)) long depth(long n, long *sum)
{
    long here = n * n;
    if (n > 0)
        here += depth(n - 1, sum);
    *sum += here;
    return here;
}

int main(void)
{
    long sum = 0;
    hanoi(4, 0, 2);
    int value = ackermann(2, 2) + is_even(5) + is_odd(7);
    return (depth(6, &sum) + sum + value + moves[0] + moves[1] + moves[2]) & 127;
}
