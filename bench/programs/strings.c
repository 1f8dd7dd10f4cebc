/* Texts: numbers as digits, put together, measured, compared, reversed and searched, byte by byte. */

#include "bench.h"

#define NUMBERS 400

static char all[NUMBERS * 8], back[NUMBERS * 8];

static __attribute__((noinline)) u64 length(const char *text)
{
    u64 count = 0;
    while (text[count])
        count++;
    return count;
}

static __attribute__((noinline)) int compare(const char *a, const char *b)
{
    while (*a && *a == *b)
        a++, b++;
    return (u8)*a - (u8)*b;
}

static __attribute__((noinline)) const char *find(const char *text, const char *wanted)
{
    for (; *text; text++) {
        u64 i = 0;
        while (wanted[i] && text[i] == wanted[i])
            i++;
        if (!wanted[i])
            return text;
    }
    return 0;
}

static char *put_digits(char *to, u64 value)
{
    if (value > 9)
        to = put_digits(to, value / 10);
    *to++ = '0' + value % 10;
    return to;
}

static int round_is_right(void)
{
    char *end = all;
    for (u64 i = 1; i <= NUMBERS; i++) {
        end = put_digits(end, i);
        *end++ = ' ';
    }
    *end = 0;
    /* nine numbers of one digit, ninety of two, and 301 of three, each with a blank */
    u64 count = length(all), wanted = 9 * 2 + 90 * 3 + 301 * 4;
    for (u64 i = 0; i < count; i++)
        back[i] = all[count - 1 - i];
    back[count] = 0;
    for (u64 i = 0, j = count - 1; i < j; i++, j--) {
        char byte = back[i];
        back[i] = back[j];
        back[j] = byte;
    }
    return count == wanted && compare(all, back) == 0 && find(all, " 399 ") == all + wanted - 9 && !find(all, "401");
}
