# Writes what it reads, byte by byte, until the input ends.
.globl _start
_start:
    addi sp, sp, -16
again:
    li a0, 0
    mv a1, sp
    li a2, 1
    li a7, 63
    ecall
    beqz a0, over
    li a0, 1
    mv a1, sp
    li a2, 1
    li a7, 64
    ecall
    j again
over:
    li a0, 0
    li a7, 93
    ecall
