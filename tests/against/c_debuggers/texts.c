/* Texts: words counted, numbers written, and a table that finds words. */
struct entry {
    const char *word;
    unsigned length, count;
};

static struct entry table[16];
static char digits[24];
static const char text[] = "the cat and the dog and the bird";

__attribute__((noinline)) static unsigned hash(const char *word, unsigned length)
{
    unsigned value = 5381;
    for (unsigned at = 0; at < length; at++)
        value = value * 33 ^ (unsigned char)word[at];
    return value;
}

__attribute__((noinline)) static int is_same(const char *one, const char *other, unsigned length)
{
    for (unsigned at = 0; at < length; at++)
        if (one[at] != other[at])
            return 0;
    return 1;
}

__attribute__((noinline)) static struct entry *entry_of(const char *word, unsigned length)
{
    unsigned place = hash(word, length) & 15;
    while (table[place].word) {
        struct entry *entry = &table[place];
        if (entry->length == length && is_same(entry->word, word, length))
            return entry;
        place = (place + 1) & 15;
    }
    table[place].word = word;
    table[place].length = length;
    return &table[place];
}

__attribute__((noinline)) static const char *written(unsigned long n)
{
    char *to = digits + sizeof digits - 1;
    *to = 0;
    do {
        *--to = '0' + n % 10;
        n /= 10;
    } while (n);
    return to;
}

int main(void)
{
    const char *word = text;
    unsigned most = 0;
    for (const char *at = text;; at++)
        if (*at == ' ' || !*at) {
            struct entry *entry = entry_of(word, at - word);
            if (++entry->count > most)
                most = entry->count;
            word = at + 1;
            if (!*at)
                break;
        }
    return written(most * 1000 + 7)[0];
}
