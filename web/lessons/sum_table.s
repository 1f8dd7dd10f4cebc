# Adds the table's numbers: the loop ends too soon.
# exit: 60
.globl _start
_start: la   s0, table
        la   s1, behind
        li   a0, 0
next:   lw   t0, (s0)
        addi s0, s0, 4
        add  a0, a0, t0
        bne  t0, s1, done       # compare the place, not the number
        j    next
done:   li   a7, 93
        ecall
.section .rodata
table:  .word 10, 20, 30
behind:
