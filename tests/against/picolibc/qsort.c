/* qsort and bsearch over records. */
#include <stdio.h>
#include <stdlib.h>
#include <string.h>

struct city {
    char name[12];
    int people;
};

static struct city cities[] = {
    {"Oslo", 709}, {"Rome", 2873}, {"Bern", 134}, {"Paris", 2161}, {"Lisbon", 505}, {"Wien", 1897}, {"Riga", 605},
};
enum { COUNT = sizeof cities / sizeof *cities };

static int by_name(const void *one, const void *other)
{
    return strcmp(((const struct city *)one)->name, ((const struct city *)other)->name);
}

static int by_people(const void *one, const void *other)
{
    return ((const struct city *)one)->people - ((const struct city *)other)->people;
}

int main(void)
{
    qsort(cities, COUNT, sizeof *cities, by_people);
    for (int i = 0; i < COUNT; i++)
        printf("%s %d\n", cities[i].name, cities[i].people);
    qsort(cities, COUNT, sizeof *cities, by_name);
    struct city wanted = {"Riga", 0};
    struct city *found = bsearch(&wanted, cities, COUNT, sizeof *cities, by_name);
    printf("%d\n", (int)(found - cities));
    return found->people & 255;
}
