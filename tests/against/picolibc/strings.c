/* Functions of string.h. */
#include <stdio.h>
#include <string.h>

int main(void)
{
    char line[80] = "one, two;three  four", copy[80], *rest, *word;
    for (word = strtok_r(line, ",; ", &rest); word; word = strtok_r(NULL, ",; ", &rest))
        printf("<%s>", word);
    strcpy(copy, "hello");
    strcat(copy, ", world");
    strncat(copy, "!!!!", 2);
    printf("\n%s %zu %zu\n", copy, strlen(copy), strnlen(copy, 4));
    printf("%s|%s|%s\n", strchr(copy, 'o'), strrchr(copy, 'o'), strstr(copy, "wor"));
    printf("%zu %zu %s\n", strspn(copy, "hel"), strcspn(copy, "w"), strpbrk(copy, "xyzw"));
    memmove(copy + 3, copy, 8);
    printf("%s\n", copy);
    memset(copy, '-', 5);
    printf("%s %d %d\n", copy, memcmp("abc", "abd", 3) < 0, strncmp("abcdef", "abcxyz", 3));
    printf("%s\n", (char *)memchr(copy, 'o', sizeof copy));
    printf("%d %d\n", strcasecmp("HeLLo", "hEllO"), strncasecmp("abX", "ABY", 2));
    strlcpy(copy, "a long text that is cut", 10);
    return printf("%s\n", copy);
}
