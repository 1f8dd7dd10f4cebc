/* Wide characters. */
#include <stdio.h>
#include <wchar.h>

int main(void)
{
    wchar_t text[32] = L"wide ", found[8];
    wcscat(text, L"characters");
    wmemcpy(found, wcsstr(text, L"char"), 4);
    found[4] = 0;
    printf("%zu %d %d\n", wcslen(text), (int)(wcschr(text, L'c') - text), wcscmp(text, L"wide") > 0);
    for (int i = 0; found[i]; i++)
        printf("%x ", (unsigned)found[i]);
    wmemset(found, L'x', 3);
    printf("\n%c%c\n", (char)found[2], (char)found[3]);
    return 5;
}
