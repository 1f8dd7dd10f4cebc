# Of two sources the second one is wrong, on its line 12.
# rv: build -o a a.s b.s
# fault: b.s:12: E7 BadOperands
# out:
#--- a.s
.option norvc
.globl _start
_start: li a0, 7
li a7, 93
ecall
#--- b.s
{{11 * nop\n}}addi a0
