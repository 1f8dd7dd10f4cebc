# A constant of another file, whose last value counts: the word at 11001h is the end of `.word f` and `v`, 10h, 1, 0,
# 1.
# rv: build -o exe reads.s constant.s
# status: 0
# rv: run exe
# exit: 16
#--- reads.s
.option norvc
.globl _start
_start: lui a1, 17
lw a1, 0(a1)
lw a0, 0(a1)
li a7, 93
ecall
.data
p: .word f
v: .byte 1
#--- constant.s
.globl f
.set f, 1
.set f, 0x11001
