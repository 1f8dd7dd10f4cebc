/* Standard input by lines and characters. */
#include <stdio.h>
#include <string.h>

int main(void)
{
    char line[64];
    int count = 0, sum = 0, byte;
    while (count < 3 && fgets(line, sizeof line, stdin))
        printf("%d: %zu %s", ++count, strlen(line), line);
    while ((byte = getchar()) != EOF)
        sum += byte;
    putchar('\n');
    fprintf(stderr, "%d lines, and %d\n", count, sum);
    return count;
}
