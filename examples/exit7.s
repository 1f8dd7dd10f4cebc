.option norvc
.globl _start
_start: li a0, 7
li a7, 93
ecall
