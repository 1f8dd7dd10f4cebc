# Directives as GCC writes them, with a place that is set in front of its label.
# console:
# exit: 9
.option norvc
 .file "t.c"
 .option nopic
 .attribute arch, "rv64i"
 .text
 .align 1
 .globl _start
 .type _start, @function
_start:
 lui a5,17
 lw a0,4(a5)
 li a7, 93
 ecall
 .size _start, .-_start
 .data
 .align 3
 .set .LANCHOR0,. + 0
v:
 .word 8
 .word 9
 .ident "GCC"
 .section .note.GNU-stack,"",@progbits
