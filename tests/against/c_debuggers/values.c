/* Structures as arguments and as results, of all sizes, and lists of arguments. */
#include <stdarg.h>

struct one { char c; };
struct pair { int a; long b; };
struct row { long items[5]; };

struct row last;

__attribute__((noinline)) static struct one small(int n)
{
    struct one made = {n};
    return made;
}

__attribute__((noinline)) static struct pair two(struct one from, int n)
{
    struct pair made = {from.c, n};
    return made;
}

__attribute__((noinline)) static struct row row_of(struct pair pair, long step)
{
    struct row made;
    for (int at = 0; at < 5; at++)
        made.items[at] = pair.a + at * step + pair.b;
    return made;
}

__attribute__((noinline)) static long total(int count, ...)
{
    va_list rest;
    long sum = 0;
    va_start(rest, count);
    while (count-- > 0)
        sum += va_arg(rest, long);
    va_end(rest);
    return sum;
}

__attribute__((noinline)) static long weighed(struct row row, struct pair pair)
{
    return row.items[4] * pair.a - row.items[0] * pair.b;
}

int main(void)
{
    struct one one = small(65);
    struct pair pair = two(one, 3);
    last = row_of(pair, 7);
    return (total(3, last.items[1], last.items[2], 9L) + weighed(last, pair)) & 127;
}
