/* An interpreter of a small stack machine, which runs a program that counts the steps of Collatz's sequences. */

#include "bench.h"

#define BOUND 400

enum operation { PUSH, LOAD, STORE, ADD, MULTIPLY, HALVE, IS_ODD, LESS, JUMP, JUMP_IF_ZERO, STOP };

struct instruction {
    u8 operation;
    i32 operand;
};

enum variable { NUMBER, VALUE, STEPS };

static const struct instruction code[] = {
    {PUSH, 1},    {STORE, NUMBER},                                            /* 0: number = 1 */
    {LOAD, NUMBER}, {PUSH, BOUND}, {LESS, 0}, {JUMP_IF_ZERO, 36},             /* 2: while number < BOUND */
    {LOAD, NUMBER}, {STORE, VALUE},                                           /* 6: value = number */
    {PUSH, 1},    {LOAD, VALUE}, {LESS, 0}, {JUMP_IF_ZERO, 31},               /* 8: while 1 < value */
    {LOAD, VALUE}, {IS_ODD, 0}, {JUMP_IF_ZERO, 22},                           /* 12: if it is odd */
    {LOAD, VALUE}, {PUSH, 3}, {MULTIPLY, 0}, {PUSH, 1}, {ADD, 0}, {STORE, VALUE}, /* 15: value = 3 * value + 1 */
    {JUMP, 25},
    {LOAD, VALUE}, {HALVE, 0}, {STORE, VALUE},                                /* 22: else value = value / 2 */
    {LOAD, STEPS}, {PUSH, 1}, {ADD, 0}, {STORE, STEPS},                       /* 25: steps = steps + 1 */
    {JUMP, 8},    {STOP, 0},
    {LOAD, NUMBER}, {PUSH, 1}, {ADD, 0}, {STORE, NUMBER},                     /* 31: number = number + 1 */
    {JUMP, 2},
    {STOP, 0},                                                                /* 36 */
};

static i64 run(void)
{
    i64 stack[16], variables[3] = {0}, *top = stack;
    for (const struct instruction *at = code;; at++)
        switch (at->operation) {
        case PUSH: *++top = at->operand; break;
        case LOAD: *++top = variables[at->operand]; break;
        case STORE: variables[at->operand] = *top--; break;
        case ADD: top--; top[0] += top[1]; break;
        case MULTIPLY: top--; top[0] *= top[1]; break;
        case HALVE: *top /= 2; break;
        case IS_ODD: *top &= 1; break;
        case LESS: top--; top[0] = top[0] < top[1]; break;
        case JUMP: at = code + at->operand - 1; break;
        case JUMP_IF_ZERO:
            if (!*top--)
                at = code + at->operand - 1;
            break;
        default: return variables[STEPS];
        }
}

static int round_is_right(void) { return run() == 20114; }
