/* Dates of seconds. */
#include <stdio.h>
#include <time.h>

int main(void)
{
    static const long seconds[] = {0, 951782400, 1700000000, 4102444799, -86401};
    for (int i = 0; i < 5; i++) {
        struct tm date;
        char line[64];
        time_t at = seconds[i];
        gmtime_r(&at, &date);
        printf("%d %d %d %d:%d:%d %d\n", date.tm_year, date.tm_mon, date.tm_mday, date.tm_hour, date.tm_min, date.tm_sec,
            date.tm_yday);
        printf("%s", asctime_r(&date, line));
    }
    printf("%g\n", difftime(seconds[2], seconds[1]));
    return 0;
}
