/* sscanf: numbers, words, sets and floating point. */
#include <stdio.h>

int main(void)
{
    int number, hex, octal, count;
    long large;
    unsigned char small;
    char word[16], set[16], letter;
    float single;
    double value;
    count = sscanf("  -42 0x1f 017 9223372036854775807 word [abc] 200", "%d %x %o %ld %15s [%15[a-z]] %hhu", &number,
        &hex, &octal, &large, word, set, &small);
    printf("%d: %d %d %d %ld %s %s %d\n", count, number, hex, octal, large, word, set, small);
    count = sscanf("3.25 -1.5e10 0.1 z", "%f %lf %*f %c", &single, &value, &letter);
    printf("%d: %g %.17g %c\n", count, single, value, letter);
    count = sscanf("12 words", "%d %d", &number, &hex);
    printf("%d: %d\n", count, number);
    return sscanf("", "%d", &number) & 255;
}
