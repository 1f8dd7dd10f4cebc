/* Builds a source, runs it, and shows its last three instructions with the register a0 after each of them.

       cc -o steps steps.c $(pkg-config --cflags --libs rv)
       ./steps ../../sum.s < numbers */

#include <inttypes.h>
#include <rv.h>
#include <stdio.h>
#include <stdlib.h>

enum { ROOM = 1 << 20, LIMIT = 1000000 };

/* All that a stream gives, up to ROOM bytes. */
static size_t read_all(FILE *stream, uint8_t *bytes)
{
    size_t length = fread(bytes, 1, ROOM, stream);

    if (ferror(stream) || !feof(stream)) {
        fprintf(stderr, "steps: cannot read all\n");
        exit(2);
    }
    return length;
}

/* Ends the program with the line of a fault. */
static void refuse(const char *name, uint32_t status, const struct rv_answer *answer, const uint8_t *line)
{
    if (status == RV_REFUSED)
        fprintf(stderr, "%s%.*s\n", answer->file ? name : "", (int)answer->length, (const char *)line);
    else
        fprintf(stderr, "steps: status %" PRIu32 "\n", status);
    exit(1);
}

/* Shows the instruction that is next after so many, and a0 then. */
static void show(const uint8_t *executable, size_t length, const uint8_t *input, size_t input_length, uint64_t steps)
{
    uint8_t code[4], rights[1], console[1], text[64];
    struct rv_answer answer;
    struct rv_state state;
    struct rv_end end;
    uint64_t taken;

    /* where it is, and then what is there */
    rv_state(executable, length, input, input_length, steps, 0, code, 0, rights, 0, console, 0, &state, &end, &answer);
    rv_state(executable, length, input, input_length, steps, state.pc, code, sizeof code, rights, 0, console, 0, &state,
             &end, &answer);
    rv_disassemble(code, sizeof code, state.pc, text, sizeof text, &taken, &answer);
    printf("%4" PRIu64 "  %8" PRIx64 ":  %-24.*s a0 = %" PRIu64 "\n", steps, state.pc, (int)answer.length,
           (const char *)text, state.registers[10]);
}

int main(int count, char **words)
{
    static uint8_t source[ROOM], executable[ROOM], input[ROOM], console[ROOM];
    struct rv_answer answer;
    struct rv_end end;
    uint64_t length, instructions, steps;
    size_t input_length;
    uint32_t status;
    FILE *file;

    if (count != 2 || !(file = fopen(words[1], "rb"))) {
        fprintf(stderr, "usage: steps SOURCE < INPUT\n");
        return 2;
    }
    length = read_all(file, source);
    input_length = read_all(stdin, input);

    status = rv_build(source, length, &length, 1, RV_TEXT_START, 0, executable, ROOM, console, 0, &answer);
    if (status != RV_OK)
        refuse(words[1], status, &answer, executable);
    length = answer.length;

    status = rv_run(executable, length, input, input_length, LIMIT, console, ROOM, &end, &instructions, &answer);
    if (status != RV_OK)
        refuse(words[1], status, &answer, console);
    fwrite(console, 1, answer.length, stdout);
    printf("end %" PRIu32 ", code %" PRIu32 "\n", end.kind, end.code);

    for (steps = instructions < 3 ? 0 : instructions - 3; steps < instructions; steps++)
        show(executable, length, input, input_length, steps);
    return 0;
}
