/* Refuses each request of librv for memory in turn: the call has to answer RV_MEMORY, leave its buffers as they were
   and free all that it took; with the request after its last one it has to be done. Link with
   --wrap=malloc,--wrap=realloc,--wrap=free. The last line is 'N passed, M failed'. */

#include <rv.h>
#include <stdio.h>
#include <stdlib.h>
#include <string.h>

enum { ROOM = 1 << 16, GUARD = 0xa5, MOST = 100000 };

void *__real_malloc(size_t size);
void *__real_realloc(void *block, size_t size);
void __real_free(void *block);

static long made, refused, held;
static int passed, failed;

/* Whether this request is the one that gets nothing. */
static int refuses(void)
{
    return ++made == refused;
}

void *__wrap_malloc(size_t size)
{
    void *block = refuses() ? NULL : __real_malloc(size);

    held += block != NULL;
    return block;
}

void *__wrap_realloc(void *block, size_t size)
{
    void *grown = refuses() ? NULL : __real_realloc(block, size);

    held += !block && grown;
    return grown;
}

void __wrap_free(void *block)
{
    held -= block != NULL;
    __real_free(block);
}

static const char SOURCE[] =
    ".globl _start\n_start: li a0, 1; la a1, msg; li a2, 5; li a7, 64; ecall; call f; li a7, 93; ecall\n"
    "f: li a0, 0; ret\n.section .rodata\nmsg: .ascii \"hello\"\n";
static const char FAULTY[] = "f: ret\nlo a0, 7\n";
static uint8_t executable[ROOM], object[ROOM], out[ROOM], more[ROOM];
static uint64_t executable_length, object_length;
static struct rv_answer answer;

static uint32_t builds(void)
{
    const uint64_t length = sizeof SOURCE - 1;

    return rv_build((const uint8_t *)SOURCE, length, &length, 1, RV_TEXT_START, RV_MAP, out, ROOM, more, ROOM, &answer);
}

static uint32_t assembles(void)
{
    return rv_as((const uint8_t *)SOURCE, sizeof SOURCE - 1, out, ROOM, &answer);
}

static uint32_t refuses_a_source(void)
{
    return rv_as((const uint8_t *)FAULTY, sizeof FAULTY - 1, out, ROOM, &answer) == RV_REFUSED ? RV_OK : RV_MEMORY;
}

static uint32_t links(void)
{
    return rv_ld(object, object_length, &object_length, 1, RV_TEXT_START, RV_MAP, out, ROOM, more, ROOM, &answer);
}

static uint32_t runs(void)
{
    struct rv_end end;
    uint64_t count;

    return rv_run(executable, executable_length, (const uint8_t *)"", 0, 1000, out, ROOM, &end, &count, &answer);
}

static uint32_t reaches_a_state(void)
{
    struct rv_state state;
    struct rv_end end;

    return rv_state(executable, executable_length, (const uint8_t *)"", 0, 8, RV_TEXT_START, out, 64, more, 64,
                    out + 64, ROOM - 64, &state, &end, &answer);
}

static uint32_t goes_on(void)
{
    struct rv_state state;
    struct rv_end end;

    return rv_resume(executable, executable_length, (const uint8_t *)"", 0, (const uint8_t *)"", 0, 8, RV_TEXT_START,
                     out, 64, more, 64, out + 64, ROOM - 64, more + 64, ROOM - 64, &state, &end, &answer);
}

static uint32_t lists(void)
{
    const uint64_t length = sizeof SOURCE - 1, name_length = 3;

    return rv_list((const uint8_t *)SOURCE, length, &length, 1, (const uint8_t *)"a.s", 3, &name_length, 1,
                   RV_TEXT_START, 0, 5, out, ROOM, &answer);
}

static uint32_t checks(void)
{
    const uint64_t length = sizeof FAULTY - 1, name_length = 3;

    return rv_check((const uint8_t *)FAULTY, length, &length, 1, (const uint8_t *)"a.s", 3, &name_length, 1,
                    RV_TEXT_START, 0, out, ROOM, &answer);
}

static uint32_t disassembles(void)
{
    const uint8_t code[] = {0x13, 0x05, 0x70, 0x00};
    uint64_t taken;

    return rv_disassemble(code, sizeof code, 0, out, ROOM, &taken, &answer);
}

static int is_untouched(const uint8_t *bytes)
{
    for (int at = 0; at < ROOM; at++)
        if (bytes[at] != GUARD)
            return 0;
    return 1;
}

/* Makes a call again and again, with another request refused each time. */
static void refuse_each(const char *name, uint32_t (*call)(void))
{
    uint32_t status = RV_MEMORY;
    int holds = 1;

    for (refused = 1; status == RV_MEMORY && holds && refused < MOST; refused++) {
        memset(out, GUARD, ROOM);
        memset(more, GUARD, ROOM);
        made = held = 0;
        status = call();
        holds = held == 0 &&
                (status == RV_OK ? made < refused : status == RV_MEMORY && is_untouched(out) && is_untouched(more));
    }
    holds = holds && status == RV_OK && refused > 2;
    passed += holds;
    failed += !holds;
    if (!holds)
        printf("%s: status %u with request %ld refused, %ld blocks held\n", name, status, refused - 1, held);
}

int main(void)
{
    if (builds() != RV_OK)
        return 1;
    memcpy(executable, out, executable_length = answer.length);
    if (assembles() != RV_OK)
        return 1;
    memcpy(object, out, object_length = answer.length);
    refuse_each("rv_build", builds);
    refuse_each("rv_as", assembles);
    refuse_each("rv_as of a fault", refuses_a_source);
    refuse_each("rv_ld", links);
    refuse_each("rv_run", runs);
    refuse_each("rv_state", reaches_a_state);
    refuse_each("rv_resume", goes_on);
    refuse_each("rv_list", lists);
    refuse_each("rv_check", checks);
    refuse_each("rv_disassemble", disassembles);
    printf("%d passed, %d failed\n", passed, failed);
    return failed > 0;
}
