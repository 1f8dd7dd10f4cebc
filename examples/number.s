# Prints a number: its digits are made from the last to the first, below the stack's end.
# console: 12345
.globl _start
_start: li   a0, 12345
        call number
        li   a0, 0
        li   a7, 93
        ecall
number: addi sp, sp, -32
        addi a1, sp, 32
        li   t0, 10
1:      remu t1, a0, t0
        addi t1, t1, '0'
        addi a1, a1, -1
        sb   t1, (a1)
        divu a0, a0, t0
        bnez a0, 1b
        addi a2, sp, 32
        sub  a2, a2, a1
        li   a0, 1
        li   a7, 64
        ecall
        addi sp, sp, 32
        ret
