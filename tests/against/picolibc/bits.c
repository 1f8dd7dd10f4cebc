/* Counts and swaps of bits, which are functions of libgcc. */
#include <stdio.h>

int main(void)
{
    volatile unsigned long values[] = {1, 255, 0x8000000000000000, 0x123456789abcdef, ~0ul, 0x00ff00ff00ff0000};
    for (int i = 0; i < 6; i++) {
        unsigned long x = values[i];
        printf("%d %d %d %d ", __builtin_popcountl(x), __builtin_clzl(x), __builtin_ctzl(x), __builtin_parityl(x));
        printf("%d %016lx %08x\n", __builtin_ffsl(x), __builtin_bswap64(x), __builtin_bswap32(x));
        printf("%d %d\n", __builtin_clrsbl(x), __builtin_popcount(x));
    }
    return 0;
}
