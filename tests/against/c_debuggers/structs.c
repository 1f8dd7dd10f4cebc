/* Structures in structures, unions, fields of bits and enumerations. */
enum kind { EMPTY, WHOLE, HALF = 7 };

typedef struct {
    int x, y;
} Point;

union word {
    unsigned long whole;
    unsigned short halves[4];
    unsigned char bytes[8];
};

struct shape {
    enum kind kind;
    Point corner, size;
    union word word;
    unsigned int low : 3, middle : 9;
    signed int high : 20;
    struct shape *next;
    struct {
        char name[6];
        _Bool is_shown;
    } label;
};

struct shape first = {WHOLE, {1, 2}, {3, 4}, {0x1122334455667788}, 5, 300, -70000, 0, {"first", 1}};
static struct shape second = {HALF, {-1, -2}, {30, 40}, {9}, 1, 2, 3, &first, {"other", 0}};

__attribute__((noinline)) static long area(const struct shape *shape)
{
    long width = shape->size.x, height = shape->size.y;
    return width * height;
}

__attribute__((noinline)) static Point moved(Point point, int by)
{
    Point made = {point.x + by, point.y - by};
    return made;
}

__attribute__((noinline)) int sum_of(struct shape *all)
{
    int sum = 0;
    for (struct shape *it = all; it; it = it->next) {
        it->corner = moved(it->corner, it->low);
        it->label.is_shown = it->middle > 100;
        sum += area(it) + it->corner.x + it->word.halves[1] + it->high;
    }
    return sum;
}

int main(void)
{
    int sum = sum_of(&second);
    second.word.bytes[3] = sum;
    return second.word.whole & 127;
}
