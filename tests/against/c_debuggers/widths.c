/* Numbers of all widths, signed and not, and truth. */
signed char tiny = -5;
unsigned char small = 250;
short middle = -30000;
unsigned short wide = 60000;
int whole = -2000000000;
unsigned int natural = 4000000000u;
long large = -9000000000000000000;
unsigned long huge = 18000000000000000000u;
_Bool truth = 1;
const volatile long fixed = 77;

__attribute__((noinline)) static signed char low(long n)
{
    signed char part = n;
    return part;
}

__attribute__((noinline)) static unsigned short half(unsigned long n)
{
    unsigned short part = n >> 3;
    return part;
}

__attribute__((noinline)) static _Bool is_large(long n)
{
    _Bool found = n > large;
    return found;
}

__attribute__((noinline)) static unsigned long mixed(signed char a, unsigned char b, short c, unsigned short d, int e,
                                                     unsigned f, long g, unsigned long h, _Bool i, long j)
{
    unsigned long sum = a + b + c + d;
    sum += e + f;
    sum ^= g - h;
    return i ? sum + j : sum;
}

int main(void)
{
    unsigned long sum = mixed(tiny, small, middle, wide, whole, natural, large, huge, truth, fixed);
    sum += low(sum) + half(sum);
    truth = is_large(sum);
    return (sum + truth) & 127;
}
