# A source that jumps over a number of bytes reaches code without a label.
# rv: check a.s
# errors:
# out is: wanted
#--- a.s
.globl _start
_start: j . + 8
nop
li a7, 93
ecall
#--- wanted
text 12, rodata 0, data 0, bss 0 bytes
