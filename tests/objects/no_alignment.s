# An alignment of 0 is that of 1. With 0 at 318h, the alignment of `.text`, the executable is that of the source.
# rv: as -o hello.o hello.s
# patch: hello.o 318 00
# rv: build -o built --map built.map hello.s
# status: 0
# rv: ld -o exe --map map hello.o
# same: exe built
# same: map built.map
#--- hello.s
.globl _start
_start: li a0, 1
la a1, msg
li a2, 5
li a7, 64
ecall
li a0, 0
li a7, 93
ecall
.section .rodata
msg: .ascii "hello"
