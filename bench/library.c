/* Builds a source and runs it, again and again in one process; prints how many times a second of a processor.

   usage: library SOURCE TIMES */

#include <rv.h>
#include <stdio.h>
#include <stdlib.h>
#include <time.h>

enum { ROOM = 1 << 16 };

int main(int argc, char **words)
{
    static uint8_t source[ROOM], executable[ROOM], console[ROOM];
    struct rv_answer answer;
    struct rv_end end;
    uint64_t length, count;
    long times = argc == 3 ? strtol(words[2], NULL, 10) : 0;
    FILE *file = times > 0 ? fopen(words[1], "rb") : NULL;
    clock_t start;

    if (!file)
        return 2;
    length = fread(source, 1, ROOM, file);
    start = clock();
    for (long at = 0; at < times; at++) {
        if (rv_build(source, length, &length, 1, RV_TEXT_START, 0, executable, ROOM, console, 0, &answer) != RV_OK)
            return 1;
        if (rv_run(executable, answer.length, source, 0, 1000000, console, ROOM, &end, &count, &answer) != RV_OK)
            return 1;
    }
    printf("%.0f\n", times / ((double)(clock() - start) / CLOCKS_PER_SEC));
    return 0;
}
