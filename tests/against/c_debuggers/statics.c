/* Static functions, static variables inside of functions, and names that hide others. */
static int value = 3;
int shared = 4;

__attribute__((noinline)) static int next(void)
{
    static int value = 10;
    return value++;
}

__attribute__((noinline)) static int hidden(int value)
{
    int sum = value;
    for (int round = 0; round < 3; round++) {
        int value = round * 2;
        {
            long value = sum - round;
            sum += value & 15;
        }
        sum += value;
    }
    return sum;
}

__attribute__((noinline)) static unsigned counted(unsigned char step)
{
    static unsigned char calls;
    static const unsigned char steps[] = {1, 3, 9, 27};
    calls += steps[step & 3];
    return calls;
}

__attribute__((noinline)) int every(void)
{
    int found = hidden(value) + next();
    for (int step = 0; step < 5; step++)
        found += counted(step);
    return found + next();
}

int main(void)
{
    extern int shared;
    shared += every();
    return (shared + value) & 127;
}
