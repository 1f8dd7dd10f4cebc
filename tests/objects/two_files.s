# The objects of these sources link to the executable and the map that the sources build, with short calls
# and without: a program whose loop has the name of a global one of the other file, which goes on. It exits with 11: 3 and
# two times 4. Without the second the link is refused, and with an `f` of its own.
# rv: as -o first.o first.s
# rv: as -o second.o second.s
# rv: build -o built --map built.map first.s second.s
# status: 0
# rv: ld -o exe --map map first.o second.o
# same: exe built
# same: map built.map
# rv: build --no-relax -o built --map built.map first.s second.s
# status: 0
# rv: ld --no-relax -o exe --map map first.o second.o
# same: exe built
# same: map built.map
# rv: ld -o exe first.o second.o
# rv: run exe
# exit: 11
# rv: as -o first_with_f.o first_with_f.s
# rv: ld -o exe first_with_f.o second.o
# fault: L6 Duplicate f
# rv: build -o exe first_with_f.s second.s
# fault: L6 Duplicate f
# rv: ld -o exe first.o
# fault: L5 Undefined f
# rv: build -o exe first.s
# fault: L5 Undefined f
#--- first.s
.globl _start
_start: li a0, 0
loop: addi a0, a0, 1
li t0, 3
blt a0, t0, loop
tail f
#--- second.s
.globl f, loop
f: loop: addi a0, a0, 4
li t0, 10
blt a0, t0, loop
li a7, 93
ecall
#--- first_with_f.s
.globl _start, f
_start: li a0, 0
loop: addi a0, a0, 1
li t0, 3
blt a0, t0, loop
f: tail f
