# The objects of these sources link to the executable and the map that the sources build, with short calls
# and without: a program that writes a text.
# rv: as -o hello.o hello.s
# rv: build -o built --map built.map hello.s
# status: 0
# rv: ld -o exe --map map hello.o
# same: exe built
# same: map built.map
# rv: build --no-relax -o built --map built.map hello.s
# status: 0
# rv: ld --no-relax -o exe --map map hello.o
# same: exe built
# same: map built.map
#--- hello.s
.globl _start
_start: li a0, 1
la a1, msg
li a2, 5
li a7, 64
ecall
li a0, 0
li a7, 93
ecall
.section .rodata
msg: .ascii "hello"
