/* Pointers to pointers, to functions, to constants and to arrays. */
typedef int (*Operation)(int, int);

static int sum(int a, int b) { return a + b; }
static int product(int a, int b) { return a * b; }
static int difference(int a, int b) { return a - b; }

static const Operation operations[] = {sum, product, difference};
const char *const names[] = {"sum", "product", "difference"};
int numbers[4] = {3, 5, 7, 11};
int (*all)[4] = &numbers;
volatile int *latest;
void *anything = numbers + 1;

__attribute__((noinline)) static void swap(int **one, int **other)
{
    int *kept = *one;
    *one = *other;
    *other = kept;
}

__attribute__((noinline)) static int apply(Operation operation, const int *from, const int *to)
{
    int value = *from;
    while (++from < to)
        value = operation(value, *from);
    return value;
}

__attribute__((noinline)) static unsigned long length(const char *text)
{
    const char *end = text;
    while (*end)
        end++;
    return end - text;
}

int main(void)
{
    int *low = &(*all)[0], *high = &(*all)[3];
    int found = 0;
    swap(&low, &high);
    for (unsigned which = 0; which < 3; which++) {
        found += apply(operations[which], numbers, numbers + 4) + length(names[which]);
        latest = low;
    }
    return (found + *latest + *high + *(int *)anything) & 127;
}
