/* Kinds of characters. */
#include <ctype.h>
#include <stdio.h>

int main(void)
{
    int sum = 0;
    for (int c = 0; c < 128; c++) {
        int kinds = !!isalpha(c) | !!isdigit(c) << 1 | !!isspace(c) << 2 | !!ispunct(c) << 3 | !!isxdigit(c) << 4
            | !!iscntrl(c) << 5 | !!isupper(c) << 6 | !!isprint(c) << 7;
        printf("%02x%c", kinds, c % 16 == 15 ? '\n' : ' ');
        sum += toupper(c) + 3 * tolower(c);
    }
    return sum & 255;
}
