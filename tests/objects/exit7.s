# The objects of these sources link to the executable and the map that the sources build, with short calls and
# without; a second one is empty.
# rv: as -o exit7.o exit7.s
# rv: build -o built --map built.map exit7.s
# status: 0
# rv: ld -o exe --map map exit7.o
# same: exe built
# same: map built.map
# rv: build --no-relax -o built --map built.map exit7.s
# status: 0
# rv: ld --no-relax -o exe --map map exit7.o
# same: exe built
# same: map built.map
# rv: as -o empty.o empty.s
# rv: build -o built --map built.map exit7.s empty.s
# status: 0
# rv: ld -o exe --map map exit7.o empty.o
# same: exe built
# same: map built.map
# rv: build --no-relax -o built --map built.map exit7.s empty.s
# status: 0
# rv: ld --no-relax -o exe --map map exit7.o empty.o
# same: exe built
# same: map built.map
#--- exit7.s
.option norvc
.globl _start
_start: li a0, 7
li a7, 93
ecall
#--- empty.s
