/* Calls of librv at their edges: lengths of 0, inputs that overlap, buffers that are too small, bytes behind a buffer.
   A line for each that does not hold; the last line is 'N passed, M failed'. */

#include <rv.h>
#include <stdio.h>
#include <string.h>

static int passed, failed;

static void check(int holds, const char *what)
{
    passed += !!holds;
    failed += !holds;
    if (!holds)
        printf("%s\n", what);
}

static const uint8_t *bytes(const char *text)
{
    return (const uint8_t *)text;
}

static const char EXIT7[] = ".option norvc\n.globl _start\n_start: li a0, 7\nli a7, 93\necall\n";
static const uint8_t CODE[] = {0x13, 0x05, 0x70, 0x00, 0x93, 0x08, 0xd0, 0x05, 0x73, 0x00, 0x00, 0x00};

enum { ROOM = 1 << 14, GUARD = 0xa5 };
static uint8_t executable[ROOM], map[ROOM], console[ROOM];
static struct rv_answer answer;
static struct rv_end end;
static struct rv_state state;
static uint64_t answer_length, count;
static uint8_t memory[16], rights[16];
static uint64_t lengths[4] = {sizeof EXIT7 - 1};

static uint32_t build(size_t count, size_t room, uint32_t flags)
{
    return rv_build(bytes(EXIT7), sizeof EXIT7 - 1, lengths, count, RV_TEXT_START, flags, executable, room, map, ROOM,
                    &answer);
}

static void builds(void)
{
    uint64_t whole;

    memset(executable, GUARD, ROOM);
    memset(map, GUARD, ROOM);
    check(build(1, ROOM, 0) == RV_OK, "a build");
    /* the executable of the first worked row: 4108 bytes, with the text at 1000h */
    check(answer.length == 4108 && answer.second_length == 0, "its length");
    check(!memcmp(executable + 4096, CODE, sizeof CODE), "its text");
    check(executable[4108] == GUARD, "nothing behind it");
    check(map[0] == GUARD, "no map");
    check(answer.kind == 0 && answer.number == 0 && answer.file == 0 && answer.line == 0, "no fault");

    check(build(1, ROOM, RV_MAP) == RV_OK && answer.second_length > 0 && answer.second_length < ROOM, "a map");
    check(map[answer.second_length] == GUARD && map[answer.second_length - 1] == '\n', "all of the map");
    whole = answer.second_length;

    /* too small: the front, and the whole lengths */
    memset(executable, GUARD, ROOM);
    check(build(1, 100, RV_MAP) == RV_SMALL, "a small buffer");
    check(answer.length == 4108 && answer.second_length == whole, "the whole lengths");
    check(executable[0] == 0x7f && executable[100] == GUARD, "the front alone");
    check(build(1, 4107, 0) == RV_SMALL && build(1, 4108, 0) == RV_OK, "one byte of room");
    check(build(1, 0, 0) == RV_SMALL && answer.length == 4108, "no room");

    /* arguments that do not belong together */
    memset(executable, GUARD, ROOM);
    lengths[0] -= 1;
    check(build(1, ROOM, 0) == RV_UNFIT, "a byte too few");
    lengths[0] += 2;
    check(build(1, ROOM, 0) == RV_UNFIT, "a byte too many");
    lengths[0] -= 1;
    lengths[1] = UINT64_MAX;
    check(build(2, ROOM, 0) == RV_UNFIT, "a length past all addresses");
    check(build(0, ROOM, 0) == RV_UNFIT, "bytes of no source");
    check(build(1, ROOM, 8) == RV_UNFIT && build(1, ROOM, UINT32_MAX) == RV_UNFIT, "flags that mean nothing");
    check(executable[0] == GUARD, "a buffer as it was");
}

static void faults(void)
{
    static const char line[] = ":3: E7 BadOperands";
    const char *source = "a:\nb:\nli\n";
    uint64_t length = strlen(source);

    memset(executable, GUARD, ROOM);
    check(rv_as(bytes(source), length, executable, ROOM, &answer) == RV_REFUSED, "a fault");
    check(answer.kind == 'E' && answer.number == 7 && answer.file == 1 && answer.line == 3, "its numbers");
    check(answer.length == strlen(line) && !memcmp(executable, line, strlen(line)), "its line");
    check(executable[answer.length] == GUARD, "nothing behind it");
    memset(executable, GUARD, ROOM);
    check(rv_as(bytes(source), length, executable, 3, &answer) == RV_REFUSED, "a fault and a small buffer");
    check(answer.length == strlen(line) && !memcmp(executable, ":3:", 3) && executable[3] == GUARD, "its front");

    /* no source has no entry; an empty one has none, either */
    check(rv_build(bytes(""), 0, lengths, 0, RV_TEXT_START, 0, executable, ROOM, map, 0, &answer) == RV_REFUSED,
          "no source");
    check(answer.kind == 'L' && answer.number == 7 && answer.file == 0 && answer.line == 0, "L7");
    check(!memcmp(executable, "L7 EntryMissing", answer.length) && answer.length == 15, "its line");
    length = 0;
    check(rv_build(bytes(""), 0, &length, 1, RV_TEXT_START, 0, executable, ROOM, map, 0, &answer) == RV_REFUSED,
          "an empty one");
    check(rv_build(bytes(EXIT7), sizeof EXIT7 - 1, lengths, 1, 1, 0, executable, ROOM, map, 0, &answer) == RV_REFUSED &&
              answer.kind == 'L' && answer.number == 9,
          "L9 of a text start");
    length = sizeof EXIT7 - 1;
    check(rv_ld(bytes(EXIT7), sizeof EXIT7 - 1, &length, 1, RV_TEXT_START, 0, executable, ROOM, map, 0, &answer) ==
                  RV_REFUSED &&
              answer.kind == 'F' && answer.file == 1 && answer.line == 0,
          "a source is no object");
}

static void runs(void)
{
    const char *hello =
        ".globl _start\n_start: li a0, 1; la a1, msg; li a2, 5; li a7, 64; ecall; li a0, 0; li a7, 93; ecall\n"
        ".section .rodata\nmsg: .ascii \"hello\"\n";
    uint64_t length = strlen(hello);

    check(build(1, ROOM, 0) == RV_OK, "the build of a run");
    check(rv_run(executable, 4108, bytes(""), 0, 3, console, 0, &end, &count, &answer) == RV_OK, "a run");
    check(end.kind == RV_EXITED && end.code == 7 && end.address == 0 && answer.length == 0, "its end");
    check(rv_run(executable, 4108, bytes(""), 0, 2, console, 0, &end, &count, &answer) == RV_OK && end.kind == RV_LIMIT,
          "its limit");
    /* the input may be the executable itself */
    check(rv_run(executable, 4108, executable, 4108, 3, console, ROOM, &end, &count, &answer) == RV_OK && end.code == 7,
          "one for both");
    end.kind = 77;
    check(rv_run(executable, 4107, bytes(""), 0, 3, console, ROOM, &end, &count, &answer) == RV_REFUSED, "a file that is cut");
    check(answer.kind == 'F' && answer.number == 1 && end.kind == 77, "F1");
    check(rv_run(bytes(""), 0, bytes(""), 0, 3, console, ROOM, &end, &count, &answer) == RV_REFUSED && answer.number == 1,
          "no file");

    check(rv_build(bytes(hello), length, &length, 1, RV_TEXT_START, 0, executable, ROOM, map, 0, &answer) == RV_OK,
          "hello");
    length = answer.length;
    memset(console, GUARD, ROOM);
    check(rv_run(executable, length, bytes(""), 0, 1000, console, ROOM, &end, &count, &answer) == RV_OK, "its run");
    check(answer.length == 5 && !memcmp(console, "hello", 5) && console[5] == GUARD, "its console");
    memset(console, GUARD, ROOM);
    check(rv_run(executable, length, bytes(""), 0, 1000, console, 4, &end, &count, &answer) == RV_SMALL, "a small console");
    check(answer.length == 5 && !memcmp(console, "hell", 4) && console[4] == GUARD && end.kind == RV_EXITED,
          "its front");
}

static void states(void)
{
    check(build(1, ROOM, 0) == RV_OK, "the build of states");
    check(rv_state(executable, 4108, bytes(""), 0, 0, 0, memory, 0, rights, 0, console, 0, &state, &end, &answer) ==
              RV_OK,
          "a state");
    check(state.pc == 0x10000 && state.count == 0 && end.kind == RV_LIMIT, "that before the run");
    check(state.registers[2] == 0x40000000 && state.registers[10] == 0, "its registers");
    check(rv_state(executable, 4108, bytes(""), 0, 1, 0xfffe, memory, 16, rights, 15, console, 0, &state, &end,
                   &answer) == RV_OK,
          "one");
    check(state.pc == 0x10004 && state.count == 1 && state.registers[10] == 7 && state.registers[0] == 0, "after one");
    check(memory[0] == 0 && memory[1] == 0 && !memcmp(memory + 2, CODE, 12) && memory[14] == 0, "its memory");
    check(rights[1] == 0 && rights[2] == RV_EXECUTE && rights[13] == RV_EXECUTE && rights[14] == 0, "its rights");
    check(rv_state(executable, 4108, bytes(""), 0, 1000, 0x3ffffffe, memory, 4, rights, 4, console, 0, &state, &end,
                   &answer) == RV_OK,
          "all");
    check(state.pc == 0x10008 && state.count == 3 && end.kind == RV_EXITED && end.code == 7, "at its end");
    check(rights[0] == (RV_READ | RV_WRITE) && rights[1] == (RV_READ | RV_WRITE) && rights[2] == 0,
          "the end of the stack");
    /* addresses go round */
    check(rv_state(executable, 4108, bytes(""), 0, 0, UINT64_MAX, memory, 16, rights, 16, console, 0, &state, &end,
                   &answer) == RV_OK &&
              !rights[0] && !rights[1],
          "the last address");
}

static void texts(void)
{
    static const char name[] = "a.s";
    const uint64_t name_length = 3;
    uint64_t taken = 77;

    check(rv_disassemble(CODE, 12, 0, console, ROOM, &taken, &answer) == RV_OK && taken == 4, "an instruction");
    check(answer.length == 14 && !memcmp(console, "addi a0,zero,7", 14), "its text");
    check(rv_disassemble(CODE, 3, 0, console, ROOM, &taken, &answer) == RV_UNFIT && taken == 0, "three bytes of it");
    check(rv_disassemble(bytes(""), 0, 0, console, ROOM, &taken, &answer) == RV_UNFIT && taken == 0, "no bytes");
    check(rv_list(bytes(EXIT7), sizeof EXIT7 - 1, lengths, 1, bytes(name), 3, &name_length, 1, RV_TEXT_START, 0, 5,
                  console, ROOM, &answer) == RV_OK &&
              answer.length > 0,
          "a listing");
    check(rv_list(bytes(EXIT7), sizeof EXIT7 - 1, lengths, 1, bytes("\xff"), 1, &(uint64_t){1}, 1, RV_TEXT_START, 0, 5,
                  console, ROOM, &answer) == RV_UNFIT,
          "a name that is no UTF-8");
    check(rv_check(bytes("li\n"), 3, &(uint64_t){3}, 1, bytes(name), 3, &name_length, 1, RV_TEXT_START, 0, console,
                   ROOM, &answer) == RV_OK,
          "a check");
    check(answer.kind == 'E' && answer.number == 7 && answer.file == 1 && answer.line == 1, "its first fault");
    check(!memcmp(console, "{\"code\":\"E7\",\"column\":3,\"file\":\"a.s\",\"line\":1,", 46), "its line");
}

static uint32_t resume(const char *input, const uint8_t *from, size_t length, uint64_t steps, uint8_t *kept, size_t room)
{
    return rv_resume(executable, answer_length, bytes(input), strlen(input), from, length, steps, 0x3ffffff0, memory, 16,
                     rights, 16, console, ROOM, kept, room, &state, &end, &answer);
}

/* A program that reads a byte at a time onto its stack, and writes it: each byte takes ten instructions. */
static const char ECHO[] = ".option norvc\n.globl _start\n_start: addi sp, sp, -16\n"
                           "1: li a0, 0\nmv a1, sp\nli a2, 1\nli a7, 63\necall\nbeqz a0, 2f\n"
                           "li a0, 1\nli a7, 64\necall\nj 1b\n2: li a7, 93\necall\n";

static void resumes(void)
{
    static uint8_t first[ROOM], second[ROOM], third[ROOM];
    uint64_t length = sizeof ECHO - 1, whole;
    size_t at;

    check(rv_build(bytes(ECHO), sizeof ECHO - 1, &length, 1, RV_TEXT_START, 0, executable, ROOM, map, 0, &answer) == RV_OK,
          "the build of what is resumed");
    answer_length = answer.length;
    memset(first, GUARD, ROOM);
    check(resume("xyz", bytes(""), 0, 0, first, ROOM) == RV_OK && state.pc == 0x10000 && state.count == 0 &&
              end.kind == RV_LIMIT && answer.length == 0,
          "the start, kept");
    check(answer.second_length == 296 && first[296] == GUARD, "its head alone");
    whole = answer.second_length;
    check(resume("xyz", bytes(""), 0, 0, first, 295) == RV_SMALL && answer.second_length == 296 &&
              resume("xyz", bytes(""), 0, 0, first, 296) == RV_OK,
          "a byte of room");

    /* one instruction, and ten for a byte */
    check(resume("xyz", first, whole, 11, second, ROOM) == RV_OK && state.pc == 0x10004 && state.count == 11,
          "a turn from the start");
    check(answer.length == 1 && console[0] == 'x' && memory[0] == 'x' && rights[0] == (RV_READ | RV_WRITE), "its byte");
    check(answer.second_length == 296 + 16 + 4096, "a page of the stack");
    whole = answer.second_length;
    check(resume("xyz", second, whole, 10, third, ROOM) == RV_OK && answer.length == 1 && console[0] == 'y' &&
              state.count == 10 && memory[0] == 'y',
          "a turn from there");
    check(resume("xyz", second, whole, 0, third, ROOM) == RV_OK && answer.length == 0 && memory[0] == 'x' &&
              answer.second_length == whole && !memcmp(second, third, whole),
          "the same state again");
    check(resume("xyz", second, whole, 1000, third, ROOM) == RV_OK && end.kind == RV_EXITED && end.code == 0 &&
              answer.length == 2 && !memcmp(console, "yz", 2),
          "on to the end");
    check(resume("xyz", third, answer.second_length, 5, second, ROOM) == RV_OK && end.kind == RV_EXITED &&
              state.count == 1 && answer.length == 0,
          "the end ends again");

    /* what is no state: cut, more input taken than there is, a piece that goes over the end of memory that may be
       written, one in the text, bytes behind the last piece */
    check(resume("xyz", bytes(""), 0, 11, first, ROOM) == RV_OK, "a state to break");
    whole = answer.second_length;
    for (at = 1; at < whole; at += at < 296 ? 1 : 97)
        if (resume("xyz", first, at, 0, second, ROOM) != RV_UNFIT)
            check(0, "a state that is cut");
    check(resume("", first, whole, 0, second, ROOM) == RV_UNFIT, "more input taken than there is");
    first[whole] = 0;
    check(resume("xyz", first, whole + 1, 0, second, ROOM) == RV_UNFIT, "bytes behind the last piece");
    memcpy(third, first, whole);
    third[296] += 1;
    check(resume("xyz", third, whole, 0, second, ROOM) == RV_UNFIT, "a piece past the stack");
    memset(third + 296, 0, 8);
    third[298] = 1;
    check(resume("xyz", third, whole, 0, second, ROOM) == RV_UNFIT, "a piece in the text");
    memcpy(third, first, whole);
    third[288] = 0;
    check(resume("xyz", third, whole, 0, second, ROOM) == RV_UNFIT, "fewer pieces than there are");
    third[288] = 2;
    check(resume("xyz", third, whole, 0, second, ROOM) == RV_UNFIT, "more pieces than there are");
    memset(second, GUARD, ROOM);
    check(resume("xyz", third, whole, 0, second, ROOM) == RV_UNFIT && second[0] == GUARD && answer.length == 0 &&
              answer.second_length == 0,
          "a buffer as it was");
}

int main(void)
{
    builds();
    faults();
    runs();
    states();
    resumes();
    texts();
    printf("%d passed, %d failed\n", passed, failed);
    return failed > 0;
}
