/* A function of any number of arguments, over vprintf and vsnprintf. */
#include <stdarg.h>
#include <stdio.h>

static int told(const char *format, ...)
{
    char line[64];
    va_list all, again;
    va_start(all, format);
    va_copy(again, all);
    int count = vsnprintf(line, sizeof line, format, all);
    vprintf(format, again);
    va_end(again);
    va_end(all);
    printf("%d [%s]\n", count, line);
    return count;
}

static double mean(int count, ...)
{
    double sum = 0;
    va_list all;
    va_start(all, count);
    for (int i = 0; i < count; i++)
        sum += va_arg(all, double);
    va_end(all);
    return sum / count;
}

int main(void)
{
    int count = told("%d %s %f %ld %c %x %d %d %d %d\n", 1, "two", 3.0, 4l, '5', 6, 7, 8, 9, 10);
    printf("%.10f\n", mean(9, 1.0, 2.0, 3.5, 4.25, 5.0, 6.0, 7.0, 8.0, 9.0));
    return count;
}
