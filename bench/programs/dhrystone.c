/* Dhrystone 2.1 (Reinhold Weicker, 1988), its procedures in one file and without its times: a round is 200 runs, and the
   result is the values that the program's own text says the variables should have. */

#include "bench.h"

#define RUNS 200

enum identity { IDENTITY_1, IDENTITY_2, IDENTITY_3, IDENTITY_4, IDENTITY_5 };

struct record {
    struct record *next;
    enum identity kind, component;
    int integer;
    char text[31];
};

static struct record records[2], *global = &records[0], *next_global = &records[1];
static int integer_global, is_global;
static char letter_1, letter_2;
static int array_1[50], array_2[50][50];

static __attribute__((noinline)) void copy(void *to, const void *from, u64 count)
{
    memcpy(to, from, count);
}

static __attribute__((noinline)) int compare(const char *a, const char *b)
{
    while (*a && *a == *b)
        a++, b++;
    return (u8)*a - (u8)*b;
}

static __attribute__((noinline)) enum identity function_1(char a, char b)
{
    char c = a;
    if (c != b)
        return IDENTITY_1;
    letter_1 = c;
    return IDENTITY_2;
}

static __attribute__((noinline)) int function_2(const char *a, const char *b)
{
    int at = 2;
    char letter = 0;
    while (at <= 2)
        if (function_1(a[at], b[at + 1]) == IDENTITY_1) {
            letter = 'A';
            at++;
        }
    if (letter >= 'W' && letter < 'Z')
        at = 7;
    if (letter == 'R')
        return 1;
    if (compare(a, b) > 0) {
        integer_global = at + 7;
        return 1;
    }
    return 0;
}

static __attribute__((noinline)) int function_3(enum identity a) { return a == IDENTITY_3; }

static __attribute__((noinline)) void procedure_7(int a, int b, int *to) { *to = b + a + 2; }

static __attribute__((noinline)) void procedure_8(int *one, int (*two)[50], int a, int b)
{
    int at = a + 5;
    one[at] = b;
    one[at + 1] = one[at];
    one[at + 30] = at;
    for (int i = at; i <= at + 1; i++)
        two[at][i] = at;
    two[at][at - 1] += 1;
    two[at + 20][at] = one[at];
    integer_global = 5;
}

static __attribute__((noinline)) void procedure_6(enum identity a, enum identity *to)
{
    *to = a;
    if (!function_3(a))
        *to = IDENTITY_4;
    switch (a) {
    case IDENTITY_1: *to = IDENTITY_1; break;
    case IDENTITY_2: *to = integer_global > 100 ? IDENTITY_1 : IDENTITY_4; break;
    case IDENTITY_3: *to = IDENTITY_2; break;
    case IDENTITY_4: break;
    case IDENTITY_5: *to = IDENTITY_3; break;
    }
}

static __attribute__((noinline)) void procedure_5(void)
{
    letter_1 = 'A';
    is_global = 0;
}

static __attribute__((noinline)) void procedure_4(void)
{
    int is_letter = letter_1 == 'A';
    is_global = is_letter | is_global;
    letter_2 = 'B';
}

static __attribute__((noinline)) void procedure_3(struct record **to)
{
    if (global)
        *to = global->next;
    procedure_7(10, integer_global, &global->integer);
}

static __attribute__((noinline)) void procedure_2(int *to)
{
    int integer = *to + 10;
    enum identity identity = IDENTITY_2;
    do
        if (letter_1 == 'A') {
            integer--;
            *to = integer - integer_global;
            identity = IDENTITY_1;
        }
    while (identity != IDENTITY_1);
}

static __attribute__((noinline)) void procedure_1(struct record *of)
{
    struct record *next = of->next;
    copy(of->next, global, sizeof *global);
    of->integer = 5;
    next->integer = of->integer;
    next->next = of->next;
    procedure_3(&next->next);
    if (next->kind == IDENTITY_1) {
        next->integer = 6;
        procedure_6(of->component, &next->component);
        next->next = global->next;
        procedure_7(next->integer, 10, &next->integer);
    } else
        copy(of, of->next, sizeof *of);
}

static int a, b, c;
static enum identity identity;
static char text_1[31], text_2[31];

static __attribute__((noinline)) void run(int number)
{
    procedure_5();
    procedure_4();
    a = 2;
    b = 3;
    copy(text_2, "DHRYSTONE PROGRAM, 2'ND STRING", 31);
    identity = IDENTITY_2;
    is_global = !function_2(text_1, text_2);
    while (a < b) {
        c = 5 * a - b;
        procedure_7(a, b, &c);
        a++;
    }
    procedure_8(array_1, array_2, a, c);
    procedure_1(global);
    for (char at = 'A'; at <= letter_2; at++)
        if (identity == function_1(at, 'C')) {
            procedure_6(IDENTITY_1, &identity);
            copy(text_2, "DHRYSTONE PROGRAM, 3'RD STRING", 31);
            b = number;
            integer_global = number;
        }
    b = b * a;
    a = b / c;
    b = 7 * (b - c) - a;
    procedure_2(&a);
}

static int round_is_right(void)
{
    static int rounds;
    global->next = next_global;
    global->kind = IDENTITY_1;
    global->component = IDENTITY_3;
    global->integer = 40;
    copy(global->text, "DHRYSTONE PROGRAM, SOME STRING", 31);
    copy(text_1, "DHRYSTONE PROGRAM, 1'ST STRING", 31);
    if (!rounds)
        array_2[8][7] = 10;
    rounds++;
    for (int number = 1; number <= RUNS; number++)
        run(number);
    return integer_global == 5 && is_global == 1 && letter_1 == 'A' && letter_2 == 'B' && array_1[8] == 7
        && array_2[8][7] == RUNS * rounds + 10 && global->next == next_global && global->component == IDENTITY_3
        && global->integer == 17 && next_global->next == next_global && next_global->component == IDENTITY_2
        && next_global->integer == 18 && a == 5 && b == 13 && c == 7 && identity == IDENTITY_2
        && !compare(text_1, "DHRYSTONE PROGRAM, 1'ST STRING") && !compare(text_2, "DHRYSTONE PROGRAM, 2'ND STRING")
        && !compare(next_global->text, "DHRYSTONE PROGRAM, SOME STRING");
}
