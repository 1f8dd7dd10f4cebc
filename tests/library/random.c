/* Calls librv with random arguments, in blocks of exactly the lengths that it is told, so that valgrind or a sanitizer
   sees each access outside of them. Holds each call to what rv.h says of statuses and lengths, and prints how many calls
   of each function had which status.

   usage: random SEED CALLS FILE ..    (files that arguments are made of: sources NAME.s, objects NAME.o, executables;
   the last four sources and objects are such as go with others) */

#include <inttypes.h>
#include <rv.h>
#include <stdio.h>
#include <stdlib.h>
#include <string.h>

enum { MOST = 1 << 16, FILES = 64, GUARD = 0x5a, FUNCTIONS = 9, STATUSES = RV_UNKNOWN + 1, TEXTS = 3, OTHERS = 4 };
enum kind { SOURCE, OBJECT, EXECUTABLE, KINDS };

struct block {
    uint8_t *bytes;
    size_t length;
};

static const char *const names[FUNCTIONS] = {"rv_build",  "rv_as",   "rv_ld",    "rv_run",        "rv_state",
                                             "rv_resume", "rv_list", "rv_check", "rv_disassemble"};
static const char *const statuses[STATUSES] = {"ok", "small", "refused", "memory", "unfit", "too long", "unknown"};
static struct block files[KINDS][FILES];
static size_t file_counts[KINDS];
static uint64_t state_of_random;
static uint64_t counts[FUNCTIONS][STATUSES];

/* xorshift64* */
static uint64_t draw(uint64_t below)
{
    state_of_random ^= state_of_random >> 12;
    state_of_random ^= state_of_random << 25;
    state_of_random ^= state_of_random >> 27;
    return (state_of_random * UINT64_C(0x2545f4914f6cdd1d) >> 11) % below;
}

static void demand(int holds, const char *call, const char *what)
{
    if (!holds) {
        printf("%s: %s\n", call, what);
        exit(1);
    }
}

/* A block of this length, or one of a byte for none, whose pointer is not null. */
static struct block block(size_t length)
{
    struct block made = {malloc(length ? length : 1), length};

    demand(made.bytes != NULL, "malloc", "no memory");
    memset(made.bytes, GUARD, length ? length : 1);
    return made;
}

static struct block room(void)
{
    static const size_t often[] = {0, 1, 7, 100, 4096, 4108, MOST};

    return block(draw(3) ? often[draw(sizeof often / sizeof *often)] : draw(MOST));
}

/* The bytes of a file, mostly of this kind, from its start or another place, and at times cut and changed. */
static struct block input(enum kind kind, int is_other, size_t place)
{
    enum kind drawn = draw(8) ? kind : (enum kind)draw(KINDS);
    size_t count = file_counts[drawn];
    const struct block *from = &files[drawn][is_other && count >= OTHERS ? count - 1 - draw(OTHERS) : draw(count)];
    size_t start = draw(8) ? (place < from->length ? place : 0) : draw(from->length + 1);
    size_t length = draw(6) ? from->length - start : draw(from->length - start + 1);
    struct block made = block(length);

    memcpy(made.bytes, from->bytes + start, length);
    if (length && !draw(4))
        for (uint64_t changes = draw(8) + 1; changes; changes--)
            made.bytes[draw(length)] = (uint8_t)draw(256);
    return made;
}

/* Some inputs in one, with their lengths; these are wrong at times. */
static struct block joined(enum kind kind, uint64_t *lengths, size_t *count)
{
    struct block parts[TEXTS], made;
    size_t length = 0;

    *count = draw(3) ? 1 : draw(TEXTS + 1);
    for (size_t at = 0; at < *count; at++) {
        parts[at] = input(kind, at > 0, 0);
        lengths[at] = parts[at].length;
        length += parts[at].length;
    }
    made = block(length);
    length = 0;
    for (size_t at = 0; at < *count; at++) {
        memcpy(made.bytes + length, parts[at].bytes, parts[at].length);
        length += parts[at].length;
        free(parts[at].bytes);
    }
    if (*count && !draw(16))
        lengths[draw(*count)] += draw(2) ? 1 : draw(UINT64_MAX);
    return made;
}

/* What rv.h says of any status. */
static void judge(const char *call, uint32_t status, const struct rv_answer *answer, const struct block *first,
                  const struct block *second)
{
    int small = answer->length > first->length || (second && answer->second_length > second->length);

    demand(status <= RV_TOO_LONG, call, "its status");
    if (status == RV_OK || status == RV_SMALL)
        demand(small == (status == RV_SMALL), call, "a buffer that is small, or is not");
    if (status == RV_REFUSED)
        demand((answer->kind == 'E' || answer->kind == 'F' || answer->kind == 'L') && answer->number > 0 &&
                   answer->length > 0,
               call, "its fault");
    if (status <= RV_REFUSED && answer->length < first->length)
        demand(first->bytes[first->length - 1] == GUARD || answer->length == first->length, call,
               "bytes behind the last one");
}

/* Goes on from the start, and then from the state that was kept, or from a changed copy of it. */
static uint32_t resume(const struct block *executable, const struct block *read, uint64_t limit, uint64_t address,
                       struct block *memory, struct block *rights, struct block *console, struct rv_answer *answer)
{
    struct block from = block(0), kept = draw(4) ? block(1 << 17) : room();
    struct rv_state state;
    struct rv_end end;
    uint32_t status;
    int turns = 2;

    for (;;) {
        memset(console->bytes, GUARD, console->length);
        status = rv_resume(executable->bytes, executable->length, read->bytes, read->length, from.bytes, from.length,
                           limit, address, memory->bytes, memory->length, rights->bytes, rights->length, console->bytes,
                           console->length, kept.bytes, kept.length, &state, &end, answer);
        judge("rv_resume", status, answer, console, &kept);
        free(from.bytes);
        if (!--turns || status != RV_OK)
            break;
        from = block(answer->second_length - (draw(8) ? 0 : draw(answer->second_length)));
        memcpy(from.bytes, kept.bytes, from.length);
        if (!draw(3))
            from.bytes[draw(from.length)] = (uint8_t)draw(256);
    }
    free(kept.bytes);
    return status;
}

static void call(uint64_t which)
{
    static const uint64_t name_length = 3;
    enum kind kind = which == 2 ? OBJECT : SOURCE;
    uint64_t lengths[TEXTS], text_start = draw(8) ? RV_TEXT_START : draw(2) ? 4096 * draw(1 << 18) : draw(UINT64_MAX);
    uint64_t taken, limit = draw(20000), address = draw(2) ? draw(UINT64_MAX) : draw(0x20000);
    uint32_t flags = (uint32_t)(draw(8) ? draw(8) : draw(UINT32_MAX)), status;
    size_t count;
    /* (the text of an executable begins at 4096) */
    struct block first = input(which == 1 ? SOURCE : EXECUTABLE, 0, which == 8 ? 4096 + 2 * draw(32) : 0);
    struct block second = input(SOURCE, 0, 0);
    struct block both = joined(kind, lengths, &count), a = room(), b = room(), c = room();
    const struct block name = !draw(8) ? first : (struct block){(uint8_t *)"a.s", name_length};
    struct rv_answer answer;
    struct rv_state state;
    struct rv_end end;

    memset(&answer, GUARD, sizeof answer);
    switch (which) {
    case 0:
        status = rv_build(both.bytes, both.length, lengths, count, text_start, flags, a.bytes, a.length, b.bytes,
                          b.length, &answer);
        judge("rv_build", status, &answer, &a, flags & RV_MAP ? &b : NULL);
        break;
    case 1:
        status = rv_as(first.bytes, first.length, a.bytes, a.length, &answer);
        judge("rv_as", status, &answer, &a, NULL);
        break;
    case 2:
        status = rv_ld(both.bytes, both.length, lengths, count, text_start, flags, a.bytes, a.length, b.bytes, b.length,
                       &answer);
        judge("rv_ld", status, &answer, &a, flags & RV_MAP ? &b : NULL);
        break;
    case 3:
        status = rv_run(first.bytes, first.length, second.bytes, second.length, limit, a.bytes, a.length, &end,
                        &taken, &answer);
        judge("rv_run", status, &answer, &a, NULL);
        break;
    case 4:
        status = rv_state(first.bytes, first.length, second.bytes, second.length, limit, address, b.bytes, b.length,
                          c.bytes, c.length, a.bytes, a.length, &state, &end, &answer);
        judge("rv_state", status, &answer, &a, NULL);
        break;
    case 5:
        status = resume(&first, &second, limit, address, &b, &c, &a, &answer);
        break;
    case 6:
        status = rv_list(both.bytes, both.length, lengths, count, name.bytes, name.length,
                         &(uint64_t){name.length}, 1, text_start, flags, draw(9), a.bytes, a.length, &answer);
        judge("rv_list", status, &answer, &a, NULL);
        break;
    case 7:
        status = rv_check(both.bytes, both.length, lengths, count, name.bytes, name.length, &(uint64_t){name.length}, 1,
                          text_start, flags, a.bytes, a.length, &answer);
        judge("rv_check", status, &answer, &a, NULL);
        break;
    default:
        status = rv_disassemble(first.bytes, first.length, address, a.bytes, a.length, &taken, &answer);
        judge("rv_disassemble", status, &answer, &a, NULL);
        demand(taken == 0 || ((taken == 2 || taken == 4) && taken <= first.length), "rv_disassemble",
               "how many bytes it took");
    }
    counts[which][status]++;
    free(first.bytes);
    free(second.bytes);
    free(both.bytes);
    free(a.bytes);
    free(b.bytes);
    free(c.bytes);
}

/* Takes a file among those that arguments are made of. */
static void read_file(const char *name)
{
    const char *ending = strrchr(name, '.');
    enum kind kind = ending && !strcmp(ending, ".s") ? SOURCE : ending && !strcmp(ending, ".o") ? OBJECT : EXECUTABLE;
    struct block *made = &files[kind][file_counts[kind]];
    FILE *file = fopen(name, "rb");

    demand(file != NULL, name, "cannot be opened");
    demand(file_counts[kind] < FILES, name, "is one too many");
    *made = block(MOST);
    made->length = fread(made->bytes, 1, MOST, file);
    file_counts[kind]++;
    fclose(file);
}

int main(int count, char **words)
{
    uint64_t calls;

    if (count < 4)
        return 2;
    state_of_random = strtoull(words[1], NULL, 10) * UINT64_C(0x9e3779b97f4a7c15) + 1;
    calls = strtoull(words[2], NULL, 10);
    for (int at = 3; at < count; at++)
        read_file(words[at]);
    for (int kind = 0; kind < KINDS; kind++)
        demand(file_counts[kind] > 0, words[0], "a kind of file is not there");
    for (uint64_t at = 0; at < calls; at++)
        call(draw(FUNCTIONS));
    for (int kind = 0; kind < KINDS; kind++)
        for (size_t at = 0; at < file_counts[kind]; at++)
            free(files[kind][at].bytes);
    for (int at = 0; at < FUNCTIONS; at++)
        for (int status = 0; status < STATUSES; status++)
            if (counts[at][status])
                printf("%s %" PRIu64 " %s\n", names[at], counts[at][status], statuses[status]);
    return 0;
}
