# 5! by recursion: the function forgets what it must keep.
# exit: 120
.globl _start
_start: li   a0, 5
        call factorial
        li   a7, 93
        ecall
factorial:
        addi sp, sp, -16
        sd   ra, 8(sp)
        li   t0, 2
        blt  a0, t0, base
        mv   s0, a0
        addi a0, a0, -1
        call factorial
        mul  a0, a0, s0
        j    back
base:   li   a0, 1
back:   ld   ra, 8(sp)
        addi sp, sp, 16
        ret
