# The objects of these sources link to the executable and the map that the sources build, with short calls
# and without: the data of one name a constant of the last.
# rv: as -o second.o second.s
# rv: as -o data.o data.s
# rv: as -o first.o first.s
# rv: as -o size.o size.s
# rv: build -o built --map built.map second.s data.s first.s size.s
# status: 0
# rv: ld -o exe --map map second.o data.o first.o size.o
# same: exe built
# same: map built.map
# rv: build --no-relax -o built --map built.map second.s data.s first.s size.s
# status: 0
# rv: ld --no-relax -o exe --map map second.o data.o first.o size.o
# same: exe built
# same: map built.map
#--- first.s
.globl _start
_start: li a0, 0
loop: addi a0, a0, 1
li t0, 3
blt a0, t0, loop
tail f
#--- second.s
.globl f, loop
f: loop: addi a0, a0, 4
li t0, 10
blt a0, t0, loop
li a7, 93
ecall
#--- data.s
.data
.dword size
#--- size.s
.globl size
.set size, 7
