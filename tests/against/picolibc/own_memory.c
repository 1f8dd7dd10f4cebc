/* A memory of one's own in place of picolibc's, whose functions then use it. */
#include <stdio.h>
#include <stdlib.h>
#include <string.h>

static char pool[4096] __attribute__((aligned(16)));
static size_t used;

void *malloc(size_t size)
{
    void *found = pool + used;
    used += (size + 15) & ~(size_t)15;
    return used <= sizeof pool ? found : NULL;
}

void free(void *held) { (void)held; }

int main(void)
{
    char *copy = strdup("a copy"), *part = strndup("a part of it", 6);
    printf("%s, %s, %zu\n", copy, part, used);
    free(copy);
    return part - copy;
}
