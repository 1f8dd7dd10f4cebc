/* An automaton that cuts a text into names, numbers, texts and signs, by a switch for each byte. */

#include "bench.h"

enum state { OUTSIDE, NAME, NUMBER, TEXT };

static const char program_text[] =
    "while (count < 1024) { table[count] = count * 17 + offset; count = count + 1; if (table[0] == 99) print(\"it is "
    "99\"); else skip(count, 12, \"and more\"); } return value2 + value3 - 100;";

static u64 tokens(const char *text, u64 counts[4])
{
    enum state state = OUTSIDE;
    u64 all = 0;
    for (;; text++) {
        char byte = *text;
        switch (state) {
        case NAME:
            if ((byte >= 'a' && byte <= 'z') || (byte >= '0' && byte <= '9'))
                continue;
            break;
        case NUMBER:
            if (byte >= '0' && byte <= '9')
                continue;
            break;
        case TEXT:
            if (byte != '"')
                continue;
            state = OUTSIDE;
            continue;
        case OUTSIDE:
            break;
        }
        state = OUTSIDE;
        switch (byte) {
        case 0: return all;
        case ' ': continue;
        case '"': state = TEXT; break;
        case '0' ... '9': state = NUMBER; break;
        case 'a' ... 'z': state = NAME; break;
        case '(': case ')': case '{': case '}': case '[': case ']': case ';': case ',': case '+': case '-': case '*':
        case '=': case '<': break;
        default: return 0;
        }
        counts[state]++;
        all++;
    }
}

static int round_is_right(void)
{
    u64 counts[4] = {0}, all = 0;
    for (int i = 0; i < 8; i++)
        all += tokens(program_text, counts);
    return all == 8 * 57 && counts[NAME] == 8 * 17 && counts[NUMBER] == 8 * 7 && counts[TEXT] == 8 * 2;
}
