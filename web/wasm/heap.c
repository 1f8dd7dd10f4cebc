/* What the module of the library needs of an environment, where there is none: a heap, and room for the page's buffers.

   A block has 16 bytes in front, which hold its size. Blocks of up to 64 KiB have sizes that are powers of two, and
   those that were given back wait in a list for each size. Larger ones are whole pages of 64 KiB, in one list by their
   addresses, where neighbours are joined. Where memory cannot grow, there is no block, which is an answer and no trap. */

/* (the clang of the kit brings no headers) */
typedef __SIZE_TYPE__ size_t;
typedef __UINT8_TYPE__ uint8_t;
typedef __UINT64_TYPE__ uint64_t;
typedef _Bool bool;
#define NULL ((void *)0)

enum { HEAD = 16, SMALLEST = 5, LARGEST = 16, PAGE = 16, AT_ONCE = 16 };
static const size_t MOST = (size_t)1 << 40;

/* What an allocation of Rattle answers: whether there is a block, and its address, which is never null. */
struct tried {
    long is_given;
    void *block;
};

struct pages {
    size_t count;
    struct pages *next;
};

static uint8_t *top, *end;
static void *small[LARGEST + 1];
static struct pages *large;
static uint64_t nothing[2];

static size_t *size_of(void *block)
{
    return (size_t *)((uint8_t *)block - HEAD);
}

static uint8_t *grown(size_t count)
{
    size_t at = __builtin_wasm_memory_grow(0, count);
    return at == (size_t)-1 ? NULL : (uint8_t *)(at << PAGE);
}

static bool adjoin(struct pages *low, struct pages *high)
{
    return low && high && (uint8_t *)low + (low->count << PAGE) == (uint8_t *)high;
}

static void put_pages(struct pages *given, size_t count)
{
    struct pages *before = NULL, *behind = large;
    while (behind && behind < given) {
        before = behind;
        behind = behind->next;
    }
    *given = (struct pages){count, behind};
    *(before ? &before->next : &large) = given;
    if (adjoin(given, behind)) {
        given->count += behind->count;
        given->next = behind->next;
    }
    if (adjoin(before, given)) {
        before->count += given->count;
        before->next = given->next;
    }
}

static uint8_t *get_pages(size_t count)
{
    for (struct pages **at = &large; *at; at = &(*at)->next) {
        struct pages *found = *at;
        if (found->count < count)
            continue;
        struct pages *rest = found->next;
        if (found->count > count) {
            rest = (struct pages *)((uint8_t *)found + (count << PAGE));
            *rest = (struct pages){found->count - count, found->next};
        }
        *at = rest;
        return (uint8_t *)found;
    }
    return grown(count);
}

static int class_of(size_t size)
{
    int class = SMALLEST;
    while (((size_t)1 << class) < size)
        class++;
    return class;
}

static void *get(size_t asked)
{
    if (asked > MOST)
        return NULL;
    size_t size = asked + HEAD;
    if (size > (size_t)1 << LARGEST) {
        size_t count = (size + (1 << PAGE) - 1) >> PAGE;
        uint8_t *pages = get_pages(count);
        if (!pages)
            return NULL;
        *(size_t *)pages = count << PAGE;
        return pages + HEAD;
    }
    int class = class_of(size);
    if (small[class]) {
        void *block = small[class];
        small[class] = *(void **)block;
        return block;
    }
    size = (size_t)1 << class;
    if ((size_t)(end - top) < size) {
        uint8_t *pages = get_pages(AT_ONCE);
        if (!pages)
            return NULL;
        if (pages != end)
            top = pages;
        end = pages + ((size_t)AT_ONCE << PAGE);
    }
    uint8_t *block = top;
    top += size;
    *(size_t *)block = size;
    return block + HEAD;
}

static void put(void *block)
{
    size_t size = *size_of(block);
    if (size > (size_t)1 << LARGEST) {
        put_pages((struct pages *)size_of(block), size >> PAGE);
        return;
    }
    int class = class_of(size);
    *(void **)block = small[class];
    small[class] = block;
}

static struct tried tried(void *block)
{
    return (struct tried){block != NULL, block ? block : nothing};
}

struct tried rattle_alloc(size_t size, size_t alignment)
{
    (void)alignment;
    return tried(get(size));
}

struct tried rattle_realloc(void *block, size_t kept, size_t size, size_t alignment)
{
    (void)alignment;
    if (size + HEAD <= *size_of(block))
        return tried(block);
    void *made = get(size);
    if (!made)
        return tried(NULL);
    __builtin_memcpy(made, block, kept < size ? kept : size);
    put(block);
    return tried(made);
}

void rattle_dealloc(void *block)
{
    put(block);
}

/* The buffers of the page are blocks as others; null where there is none. */
void *page_take(size_t size)
{
    return get(size);
}

void page_give(void *block)
{
    put(block);
}
