#define CAPACITY 4

struct store {
    int count;
    int items[CAPACITY];
};

void put(struct store *store, int item);
long average(const struct store *store);

static inline int larger(int one, int other)
{
    int is_first = one > other;
    return is_first ? one : other;
}
