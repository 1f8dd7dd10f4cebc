# Sources are refused in their order, each by its name; before them the text's start.
# rv: build -o exe exit.s seven.s late.s early.s
# fault: late.s:1: E4 DivisionByZero
# rv: build -o exe early.s seven.s seven.s
# fault: early.s:1: E1 BadByte
# rv: build -o exe seven.s seven.s early.s
# fault: early.s:1: E1 BadByte
# rv: build -o exe --text-start 0x10001 early.s
# fault: L9 BadTextStart
#--- exit.s
.option norvc
.globl _start
_start: li a7, 93
ecall
#--- seven.s
.option norvc
.globl f, g
.data
v: .byte 3
.balign 4
f: .word 7
g: .word v
#--- late.s
li a0, 1 / 0
#--- early.s

