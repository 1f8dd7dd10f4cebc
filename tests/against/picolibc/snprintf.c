/* snprintf and sprintf: what is cut, and what would be written. */
#include <stdio.h>
#include <string.h>

int main(void)
{
    char held[16];
    for (int size = 0; size < 16; size += 3) {
        memset(held, '.', sizeof held);
        int wanted = snprintf(held, size, "%s-%d-%.1f", "text", 12345, 6.75);
        held[15] = 0;
        printf("%d %d [%s]\n", size, wanted, size ? held : "");
    }
    int count = sprintf(held, "%08lx", 0xdeadbeeful);
    puts(held);
    return count;
}
