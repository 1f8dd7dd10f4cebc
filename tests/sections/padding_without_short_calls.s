# The same bytes whether calls may be shortened or not.
# text: 0100 0100 9308d005 73000000
.option norelax; .globl _start
_start: nop
.align 2
li a7, 93
ecall
