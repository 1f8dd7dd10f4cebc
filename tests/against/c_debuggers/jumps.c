/* Switches, jumps and loops with several ends. */
enum token { END, NUMBER, PLUS, TIMES, OPEN, CLOSE };

static const char *place = "2*(3+4)+5*6+(7)";
static long number;

__attribute__((noinline)) static enum token next(void)
{
    char at = *place;
    switch (at) {
    case 0:
        return END;
    case '+':
        place++;
        return PLUS;
    case '*':
        place++;
        return TIMES;
    case '(':
        place++;
        return OPEN;
    case ')':
        place++;
        return CLOSE;
    default:
        for (number = 0; *place >= '0' && *place <= '9'; place++)
            number = number * 10 + *place - '0';
        return NUMBER;
    }
}

static long sum(enum token *token);

__attribute__((noinline)) static long atom(enum token *token)
{
    long value;
    if (*token == OPEN) {
        *token = next();
        value = sum(token);
    } else
        value = number;
    *token = next();
    return value;
}

__attribute__((noinline)) static long product(enum token *token)
{
    long value = atom(token);
again:
    if (*token != TIMES)
        goto done;
    *token = next();
    value *= atom(token);
    goto again;
done:
    return value;
}

__attribute__((noinline)) static long sum(enum token *token)
{
    long value = product(token);
    while (*token == PLUS) {
        *token = next();
        value += product(token);
    }
    return value;
}

int main(void)
{
    enum token token = next();
    long value = sum(&token);
    return value & 127;
}
