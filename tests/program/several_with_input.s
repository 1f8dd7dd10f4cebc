# One of several sources is standard input, and then the guest has none: b.s asks for four bytes, and gets none.
# rv: run a.s -
# input: .globl f\nf: addi a1, sp, -4; li a2, 4; li a0, 0; li a7, 63; ecall; addi a0, a0, 5; ret\n
# status: 5
# rv: run a.s b.s
# input: abcd
# status: 9
# rv: stats - b.s
# input: .globl _start\n_start: call f; li a7, 93; ecall\n
# status: 5
#--- a.s
.globl _start
_start: call f; li a7, 93; ecall
#--- b.s
.globl f
f: addi a1, sp, -4; li a2, 4; li a0, 0; li a7, 63; ecall; addi a0, a0, 5; ret
