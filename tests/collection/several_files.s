# The sections of each file are counted in it, `.text` first. A chain leads through a.s, b.s and c.s; what it leaves out of
# each is dropped, also the `.text` of a file that has no bytes there.
# rv: build --gc-sections -o exe --map map a.s b.s c.s
# map: drop 1 2
# map: drop 2 1
# map: drop 2 3
# map: drop 3 2
# no map: drop 1 1
# no map: drop 2 2
# no map: drop 3 1
# no map: global unused
# rv: run exe
# exit: 4
# rv: as -o a.o a.s
# rv: as -o b.o b.s
# rv: as -o c.o c.s
# rv: ld --gc-sections -o linked --map linked.map a.o b.o c.o
# same: linked exe
# same: linked.map map
#--- a.s
.globl _start, unused
_start: call f
li a7, 93
ecall
.data
unused: .word 1
#--- b.s
.globl f
.section .text.f, "ax"
f: tail g
.section .text.u, "ax"
u: call f
#--- c.s
.globl g
g: li a0, 4
ret
.section .rodata
.word 2
