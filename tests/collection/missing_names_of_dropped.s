# What a dropped section refers to need not have a meaning.
# options: --gc-sections
# exit: 4
# map: drop 1 3
.globl _start
_start: call f
li a7, 93
ecall
.section .text.f, "ax"
f: li a0, 4
ret
.section .text.g, "ax"
g: la a0, nowhere
ret
