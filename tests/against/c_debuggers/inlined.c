/* Functions that are put into others, also into one another. */
static int log_of[8], at;

static inline __attribute__((always_inline)) int square(int n)
{
    int found = n * n;
    return found;
}

static inline __attribute__((always_inline)) int hypotenuse(int a, int b)
{
    int sum = square(a) + square(b);
    int root = 0;
    while (square(root + 1) <= sum)
        root++;
    return root;
}

static int kept(int n)
{
    log_of[at++ & 7] = n;
    return n;
}

__attribute__((noinline)) int longest(const int *sides, int count)
{
    int most = 0;
    for (int side = 0; side + 1 < count; side++) {
        int length = kept(hypotenuse(sides[side], sides[side + 1]));
        if (length > most)
            most = length;
    }
    return most;
}

int main(void)
{
    int sides[] = {3, 4, 12, 5, 8, 15};
    int most = longest(sides, 6);
    return (most + log_of[2]) & 127;
}
