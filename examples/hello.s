.option norvc
.globl _start
_start: li a0, 1
lui a1, 17
li a2, 5
li a7, 64
ecall
li a0, 0
li a7, 93
ecall
.section .rodata
msg: .ascii "hello"
