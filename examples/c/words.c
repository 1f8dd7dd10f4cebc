/* Counts the lines, words and bytes of the input, reading it piece by piece, and exits with the lines. */
#include "bare.h"

static int program(void)
{
    u64 lines = 0, words = 0, bytes = 0, count;
    int inside = 0;
    char piece[61];
    while ((count = get(piece, sizeof piece)) > 0) {
        bytes += count;
        for (u64 i = 0; i < count; i++)
            switch (piece[i]) {
            case '\n':
                lines++;
                /* fall through */
            case ' ':
            case '\t':
                inside = 0;
                break;
            default:
                words += !inside;
                inside = 1;
            }
    }
    number(lines);
    text(" ");
    number(words);
    text(" ");
    number(bytes);
    text("\n");
    return lines;
}
