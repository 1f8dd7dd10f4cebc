# A load of the data takes a byte of the input; once a load has found none, the line status says that no data are ready.
# rv: run --board virt input.s
# input: xyz
# console: xyz
# exit: 3
.globl _start
_start:
    li s0, 0x10000000
    li s1, 0
1:  lbu a0, 0(s0)
    lbu a1, 5(s0)
    andi a1, a1, 1
    beqz a1, 2f
    sb a0, 0(s0)
    addi s1, s1, 1
    j 1b
2:  slli s1, s1, 16
    li a0, 0x3333
    or a0, a0, s1
    li a1, 0x100000
    sw a0, 0(a1)
