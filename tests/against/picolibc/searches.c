/* Patterns, and what stands in bytes. */
#include <fnmatch.h>
#include <libgen.h>
#include <stdio.h>
#include <string.h>
#include <strings.h>
#include <unistd.h>

int main(void)
{
    static const char *const names[] = {"a.c", "abc.h", "x.tar.gz", "README"};
    for (int i = 0; i < 4; i++)
        printf("%d%d%d%d\n", fnmatch("*.c", names[i], 0), fnmatch("[a-m]*.?", names[i], 0), fnmatch("*", names[i], 0),
            fnmatch("R??D*", names[i], 0));
    char path[] = "/usr/lib/libc.a", swapped[9] = "";
    printf("%s %s\n", (char *)memmem(path, sizeof path, "libc", 4), basename(path));
    swab("abcdefgh", swapped, 8);
    printf("%s %d %d\n", swapped, ffs(0x50), (int)strlen(strsep(&(char *){path + 1}, "/")));
    return 0;
}
